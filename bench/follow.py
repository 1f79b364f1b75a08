"""A stream beside the journal that it tells of, and followers. See follow.sh."""
import os
import random
import statistics
import subprocess
import sys
import tempfile
import time

import postgres

TO = os.path.join(os.path.dirname(os.path.dirname(os.path.abspath(__file__))), "tools", "to_postgres")
ROUNDS, CHANGES, RIGHTS, LOOKS = 5, 100_000, 20_000, 100
USERS, PAUSE, WAIT = 300, 0.05, 300
TABLES = ["o: CREATE TABLE t (x INTEGER)\n", "o: CREATE TABLE v (a INTEGER, b INTEGER, c INTEGER, d INTEGER)\n"]


def inserts(count):
    return [f"o: INSERT INTO t VALUES ({number})\n" for number in range(count)]


def rights(count):
    """GRANTs and REVOKEs in turn, by chance, of one privilege."""
    pick, held, lines = random.Random(1976), set(), []
    for _ in range(count):
        user = f"u{pick.randrange(USERS)}"
        word, by = ("REVOKE", "FROM") if user in held else ("GRANT", "TO")
        held ^= {user}
        lines.append(f"o: {word} INSERT ON t {by} {user}{' WITH GRANT OPTION' * (word == 'GRANT')}\n")
    return lines


def mix(count):
    """Of each hundred 70 INSERT, 10 UPDATE and 10 DELETE of a row by its number, 10 GRANT and REVOKE."""
    pick, lines, rows = random.Random(1978), [], 0
    others = iter(rights(count))
    for _ in range(count):
        at = pick.randrange(100)
        if at < 70 or not rows:
            lines.append(f"o: INSERT INTO t VALUES ({rows})\n")
            rows += 1
        elif at < 80:
            lines.append(f"o: UPDATE t SET x = {-pick.randrange(rows)} WHERE x = {pick.randrange(rows)}\n")
        elif at < 90:
            lines.append(f"o: DELETE FROM t WHERE x = {pick.randrange(rows)}\n")
        else:
            lines.append(next(others))
    return lines


def cascades(count):
    """Chains of 250 users, of four columns each, that fall with their first grants, again and again."""
    lines = []
    while len(lines) < count:
        lines.append("o: GRANT SELECT ON v TO u0 WITH GRANT OPTION\n")
        lines += [f"u{at}: GRANT SELECT ON v TO u{at + 1} WITH GRANT OPTION\n" for at in range(249)]
        lines.append("o: REVOKE SELECT ON v FROM u0\n")
    return lines[:count]


def seconds(program, word, path):
    with open(path, "rb") as journal:
        begun = time.monotonic()
        subprocess.run([program, word], stdin=journal, stdout=subprocess.DEVNULL, check=True)
        return time.monotonic() - begun


def streams(program, work):
    print(f"| {CHANGES:,} changes | `journal`, s | `stream`, s | ratio |\n|---|---|---|---|")
    path = os.path.join(work, "journal")
    for name, made in (("INSERT", inserts), ("a mix", mix), ("GRANT and REVOKE", rights),
            ("1,000 grants that fall at once", cascades)):
        with open(path, "w", encoding="utf-8") as file:
            file.writelines([*TABLES, *made(CHANGES)])
        pairs = [(seconds(program, "journal", path), seconds(program, "stream", path)) for _ in range(ROUNDS)]
        journal, stream = map(statistics.median, zip(*pairs))
        ratio = statistics.median(there / here for here, there in pairs)
        print(f"| {name} | {journal:.2f} | {stream:.2f} | {ratio:.2f} |", flush=True)


class Server:
    """A server of PostgreSQL, and psql to ask it."""

    def __init__(self, work):
        self.words = ["-h", work, "-U", "postgres"]

    def asked(self, database, *texts):
        words = ["psql", "-X", "-A", "-t", "-q", "-v", "ON_ERROR_STOP=1", *self.words, "-d", database]
        words += [word for text in texts for word in ("-c", text)]
        return subprocess.run(words, check=True, capture_output=True, text=True).stdout.strip()

    def script(self, database, lines):
        words = ["psql", "-X", "-q", "-v", "ON_ERROR_STOP=1", *self.words, "-d", database, "-f", "-"]
        subprocess.run(words, input="".join(lines), check=True, capture_output=True, text=True)


class Reader:
    """A session that asks one question again and again."""

    def __init__(self, server, database, question):
        words = ["psql", "-X", "-A", "-t", "-q", *server.words, "-d", database]
        self.psql = subprocess.Popen(words, stdin=subprocess.PIPE, stdout=subprocess.PIPE, text=True)
        self.question = question + ";\n"

    def ask(self):
        self.psql.stdin.write(self.question)
        self.psql.stdin.flush()
        return int(self.psql.stdout.readline())

    def until(self, wanted):
        """Seconds until it answers that, or more."""
        begun = time.monotonic()
        while self.ask() < wanted:
            if time.monotonic() > begun + WAIT:
                sys.exit("follow: it did not come")
        return time.monotonic() - begun

    def close(self):
        self.psql.stdin.close()
        self.psql.wait()


def followed(program, server, work, name, lines):
    """What stands in a journal is carried on as fast as it goes, and then line by line."""
    database, path = f"followed_{name}", os.path.join(work, f"journal-{name}")
    server.asked("postgres", f"CREATE DATABASE {database}")
    with open(path, "w", encoding="utf-8") as file:
        file.writelines([*TABLES, *lines])
    words = [TO, "--follow", path, "--report", os.devnull, "--use-roles", "--sysr", program, *server.words, database]
    begun = time.monotonic()
    subprocess.run([*words, "--once"], check=True, capture_output=True)
    rate = len(lines) / (time.monotonic() - begun)
    follower = subprocess.Popen(words, stdout=subprocess.DEVNULL, stderr=subprocess.DEVNULL)
    reader, lags, moment = Reader(server, database, "SELECT moment FROM bavgusen_stream.progress"), [], len(lines) + 2
    with open(path, "ab", buffering=0) as file:
        for number in range(LOOKS + 1):
            file.write(f"o: INSERT INTO t VALUES ({number})\n".encode())
            moment += 1
            lags.append(reader.until(moment))
            time.sleep(PAUSE)
    reader.close()
    follower.kill()
    follower.wait()
    # (the first waits for the follower's start)
    return rate, lags[1:]


def replicated(server):
    """A table that PostgreSQL itself carries from one database to another, row by row."""
    here, there = "published", "subscribed"
    for database in (here, there):
        server.asked("postgres", f"CREATE DATABASE {database}")
        server.asked(database, "CREATE TABLE t (row bigint PRIMARY KEY, x bigint NOT NULL)")
    server.asked(here, "CREATE PUBLICATION p FOR TABLE t",
        "SELECT pg_create_logical_replication_slot('s', 'pgoutput')")
    server.script(here, [f"INSERT INTO t VALUES ({number}, {number});\n" for number in range(CHANGES)])
    source = f"host={server.words[1]} user=postgres dbname={here}"
    reader = Reader(server, there, "SELECT count(*) FROM t")
    begun = time.monotonic()
    server.asked(there, f"CREATE SUBSCRIPTION q CONNECTION '{source}' PUBLICATION p "
        "WITH (create_slot = false, slot_name = 's', copy_data = false)")
    reader.until(CHANGES)
    rate, lags = CHANGES / (time.monotonic() - begun), []
    reader.question = "SELECT coalesce(max(row), 0) FROM t;\n"
    writer = Reader(server, here, "")
    for number in range(CHANGES, CHANGES + LOOKS):
        writer.question = f"INSERT INTO t VALUES ({number}, 0) RETURNING row;\n"
        writer.ask()
        lags.append(reader.until(number))
        time.sleep(PAUSE)
    reader.close()
    writer.close()
    server.asked(there, "DROP SUBSCRIPTION q")
    return rate, lags


def line(name, rate, lags):
    lags = sorted(1000 * lag for lag in lags)
    print(f"| {name} | {rate:,.0f} | {statistics.median(lags):.1f} | {lags[-1]:.1f} |", flush=True)


def main():
    program = os.path.abspath(sys.argv[1])
    with tempfile.TemporaryDirectory() as work:
        streams(program, work)
        with postgres.running(work, "-c fsync=off -c wal_level=logical") as found:
            if found is None:
                sys.exit("follow: PostgreSQL is not installed")
            server = Server(work)
            print("\n| into PostgreSQL | changes a second | lag, ms: median | most |\n|---|---|---|---|")
            line("INSERT, followed", *followed(program, server, work, "rows", inserts(CHANGES)))
            line("GRANT and REVOKE, followed", *followed(program, server, work, "rights", rights(RIGHTS)))
            line("1,000 grants that fall at once, followed", *followed(program, server, work, "chains", cascades(RIGHTS)))
            line("INSERT, by logical replication", *replicated(server))


if __name__ == "__main__":
    main()
