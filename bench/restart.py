"""How long clients wait while a server starts again. See restart.sh."""
import os
import socket
import subprocess
import sys
import tempfile
import threading
import time

CHANGES, WORKERS = 1_000_000, 16

# Takes the place of a supervisor's child, whose socket is descriptor 3.
STARTS = "import os, sys; os.environ['LISTEN_PID'] = str(os.getpid()); os.execv(sys.argv[1], sys.argv[1:])"


def started(program, listener, folder):
    def hand_on():
        kept = os.dup2(os.dup(listener.fileno()), 60)
        os.dup2(kept, 3, inheritable=True)
        os.close(kept)

    journal = os.path.join(folder, "journal")
    words = ["serve", "--workers", str(WORKERS), "--control", os.path.join(folder, "control"), "--load", journal,
        "--journal", journal]
    return subprocess.Popen([sys.executable, "-c", STARTS, program, *words], stdout=subprocess.PIPE, close_fds=False,
        preexec_fn=hand_on, env={**os.environ, "LISTEN_FDS": "1"})


def said_first(server):
    said = []
    while not said or said[-1] and not said[-1].startswith("listening"):
        said.append(server.stdout.readline().decode())
    return said


class Coming(threading.Thread):
    """Clients that come one after another, until they are to stop: how long each waited for its answer."""

    def __init__(self, port):
        super().__init__()
        self.port, self.waits, self.refused, self.over = port, [], 0, threading.Event()

    def come(self):
        begun = time.monotonic()
        try:
            with socket.create_connection(("127.0.0.1", self.port)) as client:
                client.sendall(b"USER ann\nCHECKPOINTS\n")
                client.shutdown(socket.SHUT_WR)
                said = b"".join(iter(lambda: client.recv(100), b""))
            self.refused += said.count(b"\n") != 2
        except OSError:
            self.refused += 1
        self.waits.append(time.monotonic() - begun)

    def run(self):
        while not self.over.wait(0.02):
            self.come()


def main():
    program = os.path.abspath(sys.argv[1])
    with tempfile.TemporaryDirectory() as folder, socket.create_server(("127.0.0.1", 0), backlog=1024) as listener:
        with open(os.path.join(folder, "journal"), "w") as file:
            file.write("ann: CREATE TABLE t (name TEXT, x INTEGER)\n")
            file.writelines(f"ann: INSERT INTO t VALUES ('somebody', {n})\n" for n in range(CHANGES - 1))
        server = started(program, listener, folder)
        print("".join(said_first(server)).strip())
        coming = [Coming(listener.getsockname()[1]) for _ in range(4)]
        for clients in coming:
            clients.start()
        time.sleep(1)
        subprocess.run([program, "stop", "--control", os.path.join(folder, "control")], check=True)
        server.wait()
        begun = time.monotonic()
        server = started(program, listener, folder)
        print("".join(said_first(server)).strip(), f"({time.monotonic() - begun:.2f} s from its start)")
        time.sleep(1)
        for clients in coming:
            clients.over.set()
            clients.join()
        server.kill()
        waits = sorted(wait for clients in coming for wait in clients.waits)
        refused = sum(clients.refused for clients in coming)
        print(f"{len(waits)} clients, {refused} refused; the longest waits: "
            + ", ".join(f"{wait:.2f} s" for wait in waits[-4:]) + f"; in the middle {waits[len(waits) // 2] * 1000:.1f} ms")


if __name__ == "__main__":
    main()
