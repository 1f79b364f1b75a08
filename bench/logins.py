"""What logins cost a server, and how long they take. See logins.sh."""
import os
import socket
import statistics
import subprocess
import sys
import tempfile
import threading
import time

sys.dont_write_bytecode = True
HERE = os.path.dirname(os.path.abspath(__file__))
sys.path.insert(0, os.path.join(HERE, os.pardir, "tests"))
import scram

LOGINS, CLIENTS, STUCK, PASSWORD, SALT = 4_000, 16, 64, "correct horse", bytes(range(16))


def started(program, folder):
    users = os.path.join(folder, "users")
    with open(users, "w", encoding="ascii") as file:
        file.write(f"ann:{scram.verifier(PASSWORD, SALT)}\n")
    os.chmod(users, 0o600)
    with socket.socket() as free:
        free.bind(("127.0.0.1", 0))
        port = free.getsockname()[1]
    words = [program, "serve", "--port", str(port), "--workers", str(CLIENTS), "--users", users]
    server = subprocess.Popen(words, stdout=subprocess.PIPE)
    server.stdout.readline()
    return server, port


def processor_seconds(server):
    with open(f"/proc/{server.pid}/stat", encoding="ascii") as file:
        fields = file.read().rpartition(")")[2].split()
    return (int(fields[11]) + int(fields[12])) / os.sysconf("SC_CLK_TCK")


class Client:
    """Hashes the password once, so that the server is what is measured."""

    def __init__(self, port):
        self.port, self.claim = port, scram.Claim(PASSWORD, scram.first_message("fyko+d2lbbFgONRv9qkxdawL"))
        self.keys = scram.keys(PASSWORD, SALT)

    def log_in(self):
        began = time.perf_counter()
        with socket.create_connection(("127.0.0.1", self.port)) as link, link.makefile("rwb", buffering=0) as lines:
            lines.write(f"LOGIN ann {self.claim.first}\n".encode())
            challenge = lines.readline().decode().rstrip("\n")
            lines.write(self.last(challenge).encode() + b"\n")
            lines.readline()
            assert lines.readline() == b"welcome ann\n"
        return time.perf_counter() - began

    def last(self, challenge):
        nonce = challenge.partition(",")[0]
        return self.claim.proved(challenge, f"c=biws,{nonce}", *self.keys)


def spread(waits):
    waits = sorted(1000 * it for it in waits)
    return f"median {statistics.median(waits):.2f} ms, 99 of 100 within {waits[len(waits) * 99 // 100]:.2f} ms"


def measured(server, port, clients):
    waits, before, began = [], processor_seconds(server), time.perf_counter()

    def some():
        client = Client(port)
        waits.extend(client.log_in() for _ in range(LOGINS // clients))

    threads = [threading.Thread(target=some) for _ in range(clients)]
    for it in threads:
        it.start()
    for it in threads:
        it.join()
    spent, seconds = processor_seconds(server) - before, time.perf_counter() - began
    print(f"{clients} at once: {1000 * spent / len(waits):.3f} ms of processor each, {len(waits) / seconds:,.0f} a second; "
        f"{spread(waits)}")


def beside_stuck(port):
    stuck = [socket.create_connection(("127.0.0.1", port)) for _ in range(STUCK)]
    for it in stuck:
        it.sendall(b"LOGIN ann n,,n=,r=x\n")
    client = Client(port)
    print(f"beside {STUCK} who never finish: {spread([client.log_in() for _ in range(500)])}")
    for it in stuck:
        it.close()


def main():
    with tempfile.TemporaryDirectory() as folder:
        server, port = started(sys.argv[1], folder)
        try:
            measured(server, port, 1)
            measured(server, port, CLIENTS)
            beside_stuck(port)
        finally:
            server.kill()


main()
