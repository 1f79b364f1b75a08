"""What GRANT, REVOKE and an audit cost, and statements of a grantee beside other grants. See grants.sh."""
import os
import statistics
import subprocess
import sys
import tempfile
import threading
import time

from postgres import running

# Who revokes, what, and from whom. By the second and the third the owner's grant stays, and the same others fall.
REVOKE = ("own", "REVOKE", "u0")
REVOKE_OPTION = ("own", "REVOKE GRANT OPTION FOR", "u0")
REVOKE_BEHIND = ("u0", "REVOKE", "u1")
COLUMNS = [f"c{n}" for n in range(32)]
# One privilege: SELECT alone is that on each of the columns.
ONE = "SELECT (c7)"
ROUNDS = 5
BATCH = 20_000


class Script:
    """A running `sysr run`: lines go in, and the time until the last of them is answered comes out."""

    def __init__(self, program):
        self.child = subprocess.Popen([program, "run"], stdin=subprocess.PIPE, stdout=subprocess.PIPE)

    def send(self, lines):
        """Seconds until all lines are answered, and the first bytes of the answers."""
        # The answer to this line is known, and no other is like it.
        given = "".join(line + "\n" for line in [*lines, "end: EXPORT 1000001"]).encode()
        writer = threading.Thread(target=self.write, args=(given,))
        start = time.perf_counter()
        writer.start()
        found, tail = b"", b""
        while b"no checkpoint 1000001" not in tail:
            piece = os.read(self.child.stdout.fileno(), 1 << 20)
            if not piece:
                raise SystemExit(f"the program ended: {tail!r}")
            tail = (tail + piece)[-200:] if len(piece) < 200 else tail[-100:] + piece
            found = found or piece[:200]
        took = time.perf_counter() - start
        writer.join()
        return took, found

    def write(self, given):
        self.child.stdin.write(given)
        self.child.stdin.flush()

    def done(self, lines):
        """Seconds of lines that have to be carried out."""
        took, found = self.send(lines)
        if b"done" not in found:
            raise SystemExit(f"not carried out: {found!r}")
        return took

    def memory(self):
        with open(f"/proc/{self.child.pid}/status") as status:
            return next(int(line.split()[1]) * 1024 for line in status if line.startswith("VmRSS:"))

    def close(self):
        self.child.stdin.close()
        self.child.wait()


def chain(count, privilege):
    """A grant of the owner's, and each of so many users to the next: (grantor, grantee) in order."""
    return [("own", "u0")] + [(f"u{n}", f"u{n + 1}") for n in range(count - 1)], privilege


def cycle(count):
    """Each user of a circle to the next three."""
    edges = [("own", "u0")]
    edges += [(f"u{n}", f"u{(n + step) % count}") for n in range(count) for step in (1, 2, 3)]
    return edges, ONE


def star(count):
    return [("own", "u0")] + [("u0", f"u{n + 1}") for n in range(count)], ONE


SHAPES = {
    "chain of 1,023": chain(1_023, ONE),
    "cycle of 256, each to the next three": cycle(256),
    "star of 1,000": star(1_000),
    "32 columns by a chain of 1,000": chain(1_000, "UPDATE"),
}


def granted(edges, privilege):
    return [f"{by}: GRANT {privilege} ON t TO {to} WITH GRANT OPTION" for by, to in edges]


def ours(program, edges, privilege, revocation):
    """Microseconds of the revocation, the median of some rounds, less those of a line with no work."""
    by, revoke, whom = revocation
    script = Script(program)
    columns = ", ".join(f"{name} INTEGER" for name in COLUMNS)
    script.done([f"own: CREATE TABLE t ({columns})"])
    found = []
    for _ in range(ROUNDS):
        script.done(granted(edges, privilege))
        idle = statistics.median(script.send([])[0] for _ in range(9))
        found.append(script.done([f"{by}: {revoke} {privilege} ON t FROM {whom}"]) - idle)
        if revocation != REVOKE:
            script.done([f"own: REVOKE {privilege} ON t FROM u0"])
    script.close()
    return 1e6 * statistics.median(found)


def theirs(place, edges, privilege, revocation):
    """The same by PostgreSQL, by psql's timing."""
    (user, folder), work = place
    by, revoke, whom = revocation
    names = sorted({name for edge in edges for name in edge})
    listed = privilege if privilege == ONE else f"{privilege} ({', '.join(COLUMNS)})"
    script = ["SET client_min_messages = warning;", "CREATE SCHEMA IF NOT EXISTS s;"]
    script += ["GRANT ALL ON SCHEMA s TO PUBLIC;", "SET search_path = s;"]
    script += [f"CREATE ROLE {name};" for name in names]
    script += [f"CREATE TABLE t ({', '.join(f'{name} integer' for name in COLUMNS)});", "ALTER TABLE t OWNER TO own;"]
    for _ in range(ROUNDS):
        script += [
            f"SET ROLE {giver}; GRANT {listed} ON t TO {to} WITH GRANT OPTION; RESET ROLE;" for giver, to in edges
        ]
        script += [f"SET ROLE {by};", "\\timing on", f"{revoke} {listed} ON t FROM {whom} CASCADE;", "\\timing off"]
        script += ["SET ROLE own;", f"REVOKE {listed} ON t FROM u0 CASCADE;", "RESET ROLE;"]
    script += ["DROP TABLE t;"] + [f"DROP OWNED BY {name}; DROP ROLE {name};" for name in names]
    words = [*user, f"{folder}/psql", "-q", "-h", work, "-U", "postgres", "postgres", "-v", "ON_ERROR_STOP=1"]
    done = subprocess.run(words, input="\n".join(script), stdout=subprocess.PIPE, text=True, check=True)
    times = [float(line.split()[1]) for line in done.stdout.splitlines() if line.startswith("Time:")]
    return 1e3 * statistics.median(times)


def shapes(program):
    settings = "-c fsync=off -c max_locks_per_transaction=2000"
    with tempfile.TemporaryDirectory() as work, running(work, settings) as place:
        more = [(REVOKE_OPTION, "chain of 1,023"), (REVOKE_BEHIND, "chain of 1,023")]
        for revocation, name in [*((REVOKE, name) for name in SHAPES), *more]:
            asked = *SHAPES[name], revocation
            found = f"{revocation[0]}: {revocation[1]}, {name}: {ours(program, *asked):,.0f} us"
            if place and "cycle" not in name:  # PostgreSQL refuses a grant back to its grantor
                found += f", PostgreSQL {theirs((place, work), *asked):,.0f} us"
            print(found, flush=True)


def one_of_many(program):
    """GRANT and REVOKE of one grant, with none and with 32,000 in force on its table, and with none ever kept."""
    for others in (0, 1_000):
        script = Script(program)
        columns = ", ".join(f"{name} INTEGER" for name in COLUMNS)
        script.done([f"own: CREATE TABLE t ({columns})"])
        if others:
            script.done([f"own: GRANT UPDATE ON t TO u{n}" for n in range(others)])
        pair = ["own: GRANT UPDATE (c7) ON t TO eve", "own: REVOKE UPDATE (c7) ON t FROM eve"]
        took = script.done(pair * BATCH)
        script.close()
        print(f"GRANT and REVOKE of one, {32 * others:,} in force: {1e6 * took / BATCH:,.2f} us the pair", flush=True)


def columns(program):
    """A SELECT of one column and of all 32 from a table with one row, by its owner and by a grantee."""
    script = Script(program)
    script.done([f"own: CREATE TABLE t ({', '.join(f'{name} INTEGER' for name in COLUMNS)})",
        f"own: INSERT INTO t VALUES ({', '.join('0' for _ in COLUMNS)})", "own: GRANT SELECT ON t TO bob"])
    for listed in ("c31", "*"):
        times = []
        for user in ("own", "bob"):
            lines = [f"{user}: SELECT {listed} FROM t"] * BATCH
            times.append(1e6 * min(script.send(lines)[0] for _ in range(3)) / BATCH)
        print("SELECT {} of 32 columns: {:.3f} us by the owner, {:.3f} by a grantee".format(listed, *times), flush=True)
    script.close()


def beside(program, tables, fallen):
    """What a grantee's statements cost beside 1,000 grants on each of so many tables, in force or fallen."""
    script = Script(program)
    script.done(["ann: CREATE TABLE t (a INTEGER, b TEXT)", "ann: GRANT INSERT, SELECT ON t TO bob WITH GRANT OPTION"])
    before = script.memory()
    lists = [", ".join(f"u{16 * n + k}" for k in range(16)) for n in range(62)] + [", ".join(f"v{k}" for k in range(8))]
    for table in range(tables):
        lines = [f"own: CREATE TABLE t{table} (a INTEGER)"]
        lines += [f"own: GRANT SELECT ON t{table} TO {users}" for users in lists]
        if fallen:
            lines += [f"own: REVOKE SELECT ON t{table} FROM {users}" for users in lists]
        script.done(lines)
    memory = script.memory() - before
    times = {}
    for name, line in (
        ("SELECT", ["bob: SELECT a FROM t"]),
        ("GRANT and REVOKE", ["bob: GRANT INSERT ON t TO cat", "bob: REVOKE INSERT ON t FROM cat"]),
        ("INSERT", ["bob: INSERT INTO t VALUES (7, 'seven')"]),
    ):
        times[name] = 1e6 * min(script.send(line * BATCH)[0] for _ in range(3)) / BATCH
    script.close()
    found = ", ".join(f"{name} {took:.3f}" for name, took in times.items())
    each = memory / (1_000 * tables) if tables else 0
    what = "fallen" if fallen else "in force"
    print(f"beside {1_000 * tables:>9,} grants {what}: {found} us; {each:,.0f} bytes a grant", flush=True)


def many_changes(tables):
    """On each table 1,000 grants to different users, each behind an INSERT, and one in ten is revoked."""
    for table in range(tables):
        yield f"own: CREATE TABLE t{table} (x INTEGER)"
        for user in range(1_000):
            yield f"own: INSERT INTO t{table} VALUES ({user})"
            yield f"own: GRANT SELECT ON t{table} TO u{user}"
            if user % 10 == 0:
                yield f"own: REVOKE SELECT ON t{table} FROM u{user}"


def audits(program, tables):
    """What an audit adds to a script of so many tables."""
    times = {}
    with tempfile.TemporaryFile("w+") as script:
        script.writelines(f"{line}\n" for line in many_changes(tables))
        for audited in ([], ["--audit"]):
            rounds = []
            for _ in range(3):
                script.seek(0)
                start = time.perf_counter()
                subprocess.run([program, "run", *audited], stdin=script, stdout=subprocess.DEVNULL, check=True)
                rounds.append(time.perf_counter() - start)
            times[bool(audited)] = min(rounds)
    print(f"an audit of {2_101 * tables:,} changes, {1_000 * tables:,} of them grants: {times[True] - times[False]:.2f} s "
        f"(the script {times[False]:.2f})", flush=True)


def main():
    for tables in (47, 475):
        audits(sys.argv[1], tables)
    shapes(sys.argv[1])
    one_of_many(sys.argv[1])
    columns(sys.argv[1])
    for tables in (0, 10, 100, 1_000):
        beside(sys.argv[1], tables, False)
    for tables in (10, 100):
        beside(sys.argv[1], tables, True)


if __name__ == "__main__":
    main()
