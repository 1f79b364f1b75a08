"""How long starts take. See starts.sh."""
import os
import subprocess
import sys
import tempfile
import time

import postgres

ROWS, TIMES, TOGETHER = 900_000, 9, 1000
CREATED = "CREATE TABLE t (name TEXT, x INTEGER)"


def rows(file):
    file.write(f"ann: {CREATED}\n")
    file.writelines(f"ann: INSERT INTO t VALUES ('somebody', {n})\n" for n in range(ROWS))


def started(program, words):
    """The seconds until a server with these words listens."""
    begun = time.monotonic()
    server = subprocess.Popen([program, "serve", "--port", "7979", *words], stdout=subprocess.PIPE)
    while not server.stdout.readline().startswith(b"listening"):
        pass
    took = time.monotonic() - begun
    server.kill()
    server.communicate()
    return took


def from_dump(program, folder):
    data = os.path.join(folder, "own")
    os.mkdir(data)
    with open(os.path.join(data, f"dump-{ROWS + 1:010}-{ROWS + 1:010}"), "w") as file:
        rows(file)
    return started(program, ["--data", data])


def from_journal(program, folder):
    journal = os.path.join(folder, "journal")
    with open(journal, "w") as file:
        file.write("ann: CREATE TABLE gone (name TEXT, x INTEGER)\n")
        for at in range(TIMES * ROWS // TOGETHER):
            file.writelines(f"ann: INSERT INTO gone VALUES ('somebody', {n})\n" for n in range(TOGETHER))
            file.write("ann: DELETE FROM gone\n")
        rows(file)
    return started(program, ["--changes", "10000000", "--load", journal])


def copied(folder):
    """The seconds in which PostgreSQL copies the rows into a table."""
    path = os.path.join(folder, "rows.csv")
    with open(path, "w") as file:
        file.writelines(f"somebody,{n}\n" for n in range(ROWS))
    os.chmod(path, 0o644)
    with postgres.running(folder) as server:
        if server is None:
            return None
        user, _ = server
        ask = [*user, "psql", "-qh", folder, "-d", "postgres", "-c"]
        subprocess.run([*ask, "CREATE TABLE t (name text, x bigint)"], check=True)
        begun = time.monotonic()
        subprocess.run([*ask, f"COPY t FROM '{path}' CSV"], check=True)
        return time.monotonic() - begun


def main():
    program, folder = os.path.abspath(sys.argv[1]), sys.argv[2]
    with tempfile.TemporaryDirectory(dir=folder) as work:
        os.chmod(work, 0o755)
        dump, journal = from_dump(program, work), from_journal(program, work)
        took = copied(work)
        print(f"from a dump {dump:.2f} s, from a journal {journal:.2f} s ({journal / dump:.1f} times)")
        print("PostgreSQL is not installed" if took is None else f"PostgreSQL copies the rows in {took:.2f} s ({dump / took:.2f} times)")


if __name__ == "__main__":
    main()
