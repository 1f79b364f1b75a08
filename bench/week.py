"""A week's changes on `sysr serve`, and its memory meanwhile. See week.sh."""
import json
import os
import socket
import subprocess
import sys
import tempfile
import threading
import time

CLIENTS, LINES, KEPT = 16, 400, 100
WEEK = 12 * 7 * 24 * 3600


class Client(threading.Thread):
    """Sessions one after another: each puts rows into a table of its own, and deletes the oldest."""

    def __init__(self, path, number, most):
        super().__init__()
        self.path, self.user, self.table, self.most = path, f"u{number}", f"t{number}", most
        self.done, self.odd = 0, []

    def session(self, lines):
        """Says these lines at once, and counts what was done."""
        with socket.socket(socket.AF_UNIX) as client:
            client.connect(self.path)
            client.sendall("".join([f"USER {self.user}\n", *lines]).encode())
            client.shutdown(socket.SHUT_WR)
            said = b"".join(iter(lambda: client.recv(1 << 16), b""))
        answers = said.decode().splitlines()
        self.done += sum(answer.startswith("done @") for answer in answers)
        self.odd += [answer for answer in answers if answer.startswith(("error", "denied", "refused"))]

    def run(self):
        self.session([f"CREATE TABLE {self.table} (x INTEGER, name TEXT)\n"])
        at = 0
        while self.done < self.most:
            lines = []
            for number in range(at, at + LINES // 2):
                lines.append(f"INSERT INTO {self.table} VALUES ({number}, 'somebody')\n")
                lines.append(f"DELETE FROM {self.table} WHERE x = {number - KEPT}\n")
            at += LINES // 2
            self.session(lines)


def status(program, control):
    done = subprocess.run([program, "status", "--control", control, "--format", "json"], capture_output=True, check=True)
    return json.loads(done.stdout)


def main():
    program, week = os.path.abspath(sys.argv[1]), int(sys.argv[2]) if len(sys.argv) > 2 else WEEK
    with tempfile.TemporaryDirectory() as folder:
        path, control = os.path.join(folder, "socket"), os.path.join(folder, "control")
        words = ["--socket", path, "--control", control, "--workers", "16", "--changes", str(2 * week + 1_000_000),
            "--journal", os.path.join(folder, "journal")]
        server = subprocess.Popen([program, "serve", *words], stdout=subprocess.PIPE)
        server.stdout.readline()
        begun, clients = time.monotonic(), [Client(path, number, week // CLIENTS) for number in range(CLIENTS)]
        for client in clients:
            client.start()
        print("| changes | sessions | seconds | memory, MB | bytes a change |\n|---|---|---|---|---|")
        first, told = status(program, control), 0
        while any(client.is_alive() for client in clients):
            time.sleep(0.2)
            seen = status(program, control)
            if seen["moment"] >= told + week // 8:
                told = seen["moment"]
                grown = seen["memory_bytes"] - first["memory_bytes"]
                print(f"| {told:,} | {seen['sessions_begun']:,} | {time.monotonic() - begun:.0f} "
                    f"| {seen['memory_bytes'] / 1e6:.0f} | {grown / told:.0f} |", flush=True)
        odd = [answer for client in clients for answer in client.odd]
        subprocess.run([program, "stop", "--control", control], check=True)
        ended = server.communicate()[0].decode().strip(), server.returncode
        print(f"{sum(client.done for client in clients):,} changes were told; odd answers: {odd[:3]}; its end: {ended}")


if __name__ == "__main__":
    main()
