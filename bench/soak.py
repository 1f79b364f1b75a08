"""Many sessions at once on `sysr serve`, each checked against what its client expects. See soak.sh."""
import random
import re
import socket
import subprocess
import sys
import threading
import time

CLIENTS, SESSIONS_OF_EACH, STATEMENTS = 16, 63, 100


class Session:
    """A connection, asked line by line."""

    def __init__(self, port, user):
        self.socket = socket.create_connection(("127.0.0.1", port), timeout=120)
        self.file = self.socket.makefile("rb")
        self.changes = 0
        wanted = f"welcome {user}"
        found = self.ask(f"USER {user}")
        assert found == wanted, found

    def line(self):
        return self.file.readline().decode().removesuffix("\n")

    def ask(self, statement):
        self.socket.sendall(statement.encode() + b"\n")
        answer = self.line()
        self.changes += answer.startswith("done @")
        return answer

    def records(self, statement):
        """The rest of an answer that ends with a line `end n`, or its one line where it is no export."""
        lines = [self.ask(statement)]
        while lines[0].startswith("export") and not lines[-1].startswith("end"):
            lines.append(self.line())
        return lines

    def checkpoints(self):
        """The moment, and the lines of the list."""
        listed, moment = re.fullmatch(r"checkpoints (\d+) @(\d+)", self.ask("CHECKPOINTS")).groups()
        return int(moment), [self.line() for _ in range(int(listed))]

    def close(self):
        self.socket.shutdown(socket.SHUT_WR)
        assert self.file.read() == b""
        self.socket.close()


class Client:
    """A user with a table of his own, and the rows that it should have."""

    def __init__(self, number):
        self.number, self.table, self.rows = number, f"t{number}", None
        self.chance = random.Random(number)
        self.changes = self.exports = self.refused = 0

    def change(self, session):
        kind, value = self.chance.randrange(10), self.chance.randrange(50)
        if kind < 7:
            said = session.ask(f"INSERT INTO {self.table} VALUES ({value})")
            self.rows.append(value)
        elif kind < 9:
            said = session.ask(f"UPDATE {self.table} SET x = {value + 1} WHERE x = {value}")
            self.rows = [row + (row == value) for row in self.rows]
        else:
            said = session.ask(f"DELETE FROM {self.table} WHERE x < {value} AND x > {value - 5}")
            self.rows = [row for row in self.rows if not value - 5 < row < value]
        assert said.startswith("done @"), said

    def export(self, session):
        """A checkpoint, and, once it is finished, an export of his table as it was."""
        begun = re.fullmatch(r"checkpoint (\d+) begun @\d+", session.ask("CHECKPOINT"))
        if not begun:
            self.refused += 1
            return
        number, rows = begun[1], list(self.rows)
        for _ in range(20):
            self.change(session)
        while True:
            lines = session.records(f"EXPORT {number} ONLY {self.table}")
            if lines[0].startswith("export"):
                wanted = [f"table,{self.table},x", *(f"row,{row}" for row in rows), f"end {number}"]
                assert lines[1:] == wanted, (lines[:3], wanted[:3])
                self.exports += 1
                return
            _, found = session.checkpoints()
            if not any(entry.startswith(f"active,{number},") for entry in found):
                return
            time.sleep(0.001)

    def session(self, port):
        session = Session(port, f"u{self.number}")
        if self.rows is None:
            assert session.ask(f"CREATE TABLE {self.table} (x INTEGER)").startswith("done @")
            self.rows = []
        for _ in range(STATEMENTS):
            self.change(session)
        if self.chance.randrange(8) == 0:
            self.export(session)
        session.close()
        self.changes += session.changes


def memory(child):
    with open(f"/proc/{child.pid}/status") as status:
        return 1024 * int(re.search(r"VmRSS:\s+(\d+)", status.read())[1])


def main(program):
    with socket.socket() as taken:
        taken.bind(("127.0.0.1", 0))
        port = taken.getsockname()[1]
    sessions = SESSIONS_OF_EACH * CLIENTS + 1
    words = ["--port", str(port), "--workers", "16", "--sessions", str(sessions)]
    child = subprocess.Popen([program, "serve", *words], stdout=subprocess.PIPE)
    child.stdout.readline()
    clients = [Client(number) for number in range(CLIENTS)]

    failed = []

    def all_of(client):
        try:
            for _ in range(SESSIONS_OF_EACH):
                client.session(port)
        except Exception as fault:
            failed.append(fault)
            raise

    start = time.monotonic()
    threads = [threading.Thread(target=all_of, args=(client,)) for client in clients]
    for thread in threads:
        thread.start()
    for thread in threads:
        thread.join()
    took = time.monotonic() - start
    if failed:
        child.kill()
        sys.exit(1)
    last = Session(port, "last")
    moment, _ = last.checkpoints()
    seen, rows = sum(c.changes for c in clients), sum(len(c.rows) for c in clients)
    used = memory(child)
    last.close()
    out = child.communicate(timeout=60)[0]
    print(f"{sessions} sessions, {moment} changes, {seen} answered `done`, in {took:.1f} s")
    print(f"{sum(c.exports for c in clients)} exports as expected; CHECKPOINT was busy {sum(c.refused for c in clients)} times")
    print(f"{used / 1e6:.1f} MB in use, {used / moment:.0f} bytes for each change; {rows} rows stand")
    assert seen == moment, "a change was lost or doubled"
    assert out == f"served {sessions}\n".encode(), out


if __name__ == "__main__":
    main(sys.argv[1])
