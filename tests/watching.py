"""Where a server listens, and how it is watched: socket files, sockets that a supervisor has opened, `sysr status`, and
what its log says of denials.
"""
import glob
import json
import os
import re
import socket
import stat
import subprocess
import sys
import tempfile
import threading
import time

from served import READ, WAIT, Server, free_port

SAID = b"USER ann\nCREATE TABLE pay (name TEXT)\nINSERT INTO pay VALUES ('Bo')\n"

# Takes the place of a supervisor's child: its descriptors are there already.
STARTS = "import os, sys; os.environ['LISTEN_PID'] = str(os.getpid()); os.execv(sys.argv[1], sys.argv[1:])"


def answered(client, text):
    """What is answered to these lines, behind which the client has no more to say."""
    with client:
        client.settimeout(WAIT)
        client.sendall(text)
        client.shutdown(socket.SHUT_WR)
        return b"".join(iter(lambda: client.recv(65536), b"")).decode()


def at_file(path):
    client = socket.socket(socket.AF_UNIX)
    client.connect(path)
    return client


def at_port(port):
    return socket.create_connection(("127.0.0.1", port), timeout=WAIT)


def refuses(port):
    """Whether nobody can connect there any more, by the time that it took too long."""
    late = time.monotonic() + WAIT
    while time.monotonic() < late:
        try:
            at_port(port).close()
        except ConnectionRefusedError:
            return True
        time.sleep(0.02)
    return False


class Watching:
    """A folder with a journal, a control socket and a socket file, and servers there."""

    def __init__(self, program, check, folder):
        self.program, self.check, self.folder = program, check, folder
        self.control, self.socket = os.path.join(folder, "control"), os.path.join(folder, "socket")

    def ends(self, *words):
        done = subprocess.run([self.program, *words], capture_output=True, timeout=WAIT, cwd=self.folder)
        return done.returncode, done.stdout.decode(), done.stderr.decode()

    def status(self, form):
        return self.ends("status", "--control", self.control, "--format", form)

    def await_sessions(self, count):
        """Returns when so many sessions have begun, or it took too long."""
        late = time.monotonic() + WAIT
        while json.loads(self.status("json")[1])["sessions_begun"] < count and time.monotonic() < late:
            time.sleep(0.02)

    def stop(self):
        return self.ends("stop", "--control", self.control)

    def serving(self, *words, **started):
        """A server without a port of its own, and the lines that it says first."""
        child = subprocess.Popen([self.program, "serve", "--control", self.control, *words], stdout=subprocess.PIPE,
            stderr=subprocess.PIPE, cwd=self.folder, **started)
        Server.running.append(child)
        return child, child.stdout.readline().decode()

    def supervised(self, listeners, *words):
        """The same, to whom these sockets are lent."""
        numbers = [listener.fileno() for listener in listeners]

        def hand_on():
            kept = [os.dup2(os.dup(number), 60 + place) for place, number in enumerate(numbers)]
            for place, number in enumerate(kept):
                os.dup2(number, 3 + place, inheritable=True)
                os.close(number)

        child = subprocess.Popen([sys.executable, "-c", STARTS, self.program, "serve", "--control", self.control, *words],
            stdout=subprocess.PIPE, stderr=subprocess.PIPE, cwd=self.folder, close_fds=False, preexec_fn=hand_on,
            env={**os.environ, "LISTEN_FDS": str(len(numbers))})
        Server.running.append(child)
        said = [child.stdout.readline()]
        while said[-1] and not said[-1].startswith(b"listening"):
            said.append(child.stdout.readline())
        return child, [line.decode() for line in said if not READ.fullmatch(line)]


def socket_files(watching):
    """Sessions at a port and at a socket file, whose mode is as asked; both are gone when the server is."""
    port = free_port()
    words = ["--port", str(port), "--socket", watching.socket, "--mode", "600"]
    child, said = watching.serving(*words)
    said += child.stdout.readline().decode()
    watching.check("it says where it listens", said == f"listening on {port}\nlistening at {watching.socket}\n", said)
    mode = stat.S_IMODE(os.stat(watching.socket).st_mode)
    watching.check("the mode of a socket file", mode == 0o600, oct(mode))
    told = [answered(at_port(port), SAID), answered(at_file(watching.socket), b"USER ann\nSELECT * FROM pay\n")]
    wanted = ["welcome ann\ndone @1\ndone @2\n", "welcome ann\nrows 1 @2\nrow,Bo\n"]
    watching.check("sessions at both", told == wanted, told)
    refused = watching.ends("serve", "--socket", watching.socket)
    taken = 1, "", f"sysr: {watching.socket}: in use by another sysr\n"
    watching.check("a socket file has one server", refused == taken, refused)
    # (who looked whether a server listens there was a session too)
    watching.await_sessions(3)
    stopped = watching.stop(), child.communicate(timeout=WAIT), child.returncode
    watching.check("stopped at both", stopped == ((0, "", ""), (b"served 3\n", b""), 0), stopped)
    left = os.listdir(watching.folder)
    watching.check("no socket file is left", left == [], left)


def socket_file_of_a_killed_server(watching):
    """It is made anew; a file that is no socket is not taken."""
    child, _ = watching.serving("--socket", watching.socket)
    mode = stat.S_IMODE(os.stat(watching.socket).st_mode)
    watching.check("the mode of a socket file, if none is given", mode == 0o660, oct(mode))
    child.kill()
    child.communicate(timeout=WAIT)
    watching.check("a killed server leaves its socket file", os.path.exists(watching.socket), "none")
    child, said = watching.serving("--socket", watching.socket)
    told = answered(at_file(watching.socket), b"USER ann\nCHECKPOINTS\n")
    watching.check("a socket file that was left", (said, told) == (f"listening at {watching.socket}\n",
        "welcome ann\ncheckpoints 0 @0\n"), (said, told))
    watching.stop()
    child.communicate(timeout=WAIT)
    with open(watching.socket, "w") as file:
        file.write("kept")
    refused = watching.ends("serve", "--socket", watching.socket)
    with open(watching.socket) as file:
        kept = file.read()
    os.remove(watching.socket)
    told = 1, "", f"sysr: {watching.socket}: cannot be listened at\n"
    watching.check("a file that is no socket", (refused, kept) == (told, "kept"), (refused, kept))


def two_ports(watching):
    """Sessions at both ports, and at that of PostgreSQL's clients alone; behind the last one that is wanted both refuse."""
    port, pg_port = free_port(), free_port()
    child, said = watching.serving("--port", str(port), "--pg-port", str(pg_port), "--sessions", "3")
    said += child.stdout.readline().decode()
    wanted = f"listening on {port}\nlistening on {pg_port} for PostgreSQL's clients\n"
    watching.check("it says for whom it listens", said == wanted, said)
    told = [answered(at_port(pg_port), SAID), answered(at_port(port), b"USER ann\nSELECT * FROM pay\n")]
    wanted = ["welcome ann\ndone @1\ndone @2\n", "welcome ann\nrows 1 @2\nrow,Bo\n"]
    watching.check("sessions at two ports", told == wanted, told)
    with at_port(pg_port):
        refused = [refuses(number) for number in (port, pg_port)]
    watching.check("behind the last session", refused == [True, True], refused)
    ended = child.communicate(timeout=WAIT), child.returncode
    watching.check("two ports: the end", ended == ((b"served 3\n", b""), 0), ended)
    pg_port = free_port()
    child, said = watching.serving("--pg-port", str(pg_port))
    watching.check("one port for PostgreSQL's clients", said == f"listening on {pg_port} for PostgreSQL's clients\n", said)
    told = answered(at_port(pg_port), b"USER ann\nCHECKPOINTS\n")
    watching.check("a session there", told == "welcome ann\ncheckpoints 0 @0\n", told)
    taken = watching.ends("serve", "--pg-port", str(pg_port))
    watching.check("a port that is taken", taken == (1, "", f"sysr: cannot listen on {pg_port}\n"), taken)
    watching.stop()
    child.communicate(timeout=WAIT)


def refused_words(watching):
    for words, told in (
        (["serve"], "error: serve needs --port, --pg-port, --socket, --user-socket, or a socket of a supervisor\n"),
        (["serve", "--port", "1", "--listen", "0.0.0.0"],
            "error: --listen takes another address than 127.0.0.1 only with --users\n"),
        (["serve", "--pg-port", "1", "--listen", "0.0.0.0"],
            "error: --listen takes another address than 127.0.0.1 only with --users\n"),
    ):
        seen = watching.ends(*words)
        watching.check(f"refused: {words}", seen == (2, "", told), seen)


def lent_sockets(watching):
    """Clients that come while no server runs wait for the next one, and none is refused."""
    with socket.create_server(("127.0.0.1", 0)) as port, socket.socket(socket.AF_UNIX) as file:
        file.bind(watching.socket)
        file.listen(16)
        number = port.getsockname()[1]
        child, said = watching.supervised([port, file], "--journal", "journal")
        watching.check("lent sockets", said == ["listening where the supervisor does\n"], said)
        told = [answered(at_port(number), SAID), answered(at_file(watching.socket), b"USER ann\nSELECT * FROM pay\n")]
        watching.check("sessions at both that are lent", told == ["welcome ann\ndone @1\ndone @2\n",
            "welcome ann\nrows 1 @2\nrow,Bo\n"], told)
        waits = at_port(number)
        stopped = watching.stop(), child.communicate(timeout=WAIT)[0], child.returncode
        watching.check("the lent server stops", stopped[::2] == ((0, "", ""), 0), stopped)
        late = at_port(number)
        child, said = watching.supervised([port, file], "--journal", "journal", "--load", "journal")
        told = [answered(client, b"USER bob\nCHECKPOINTS\n") for client in (late, at_file(watching.socket))]
        watching.check("who came between two servers", (said[0], told) == ("loaded 2 changes\n",
            2 * ["welcome bob\ncheckpoints 0 @2\n"]), (said, told))
        waits.close()
        watching.stop()
        child.communicate(timeout=WAIT)
    for name in (watching.socket, os.path.join(watching.folder, "journal")):
        os.remove(name)


def sockets_of_another_process(watching):
    """What is lent to another process is not taken."""
    port = free_port()
    with socket.create_server(("127.0.0.1", 0)) as other:
        child, said = watching.serving("--port", str(port), pass_fds=[other.fileno()],
            env={**os.environ, "LISTEN_FDS": "1", "LISTEN_PID": "1"})
        watching.check("sockets of another process", said == f"listening on {port}\n", said)
        watching.stop()
        child.communicate(timeout=WAIT)


def figures(watching):
    """What was said and answered is counted, in each form; and nothing of that is an entry or a session."""
    child, _ = watching.serving("--socket", watching.socket, "--changes", "9", "--workers", "3")
    answered(at_file(watching.socket), SAID)
    answered(at_file(watching.socket), b"USER ann\nGRANT SELECT, INSERT ON pay TO bob, carl\nREVOKE INSERT ON pay FROM bob\n")
    answered(at_file(watching.socket), b"USER eve\nSELECT * FROM pay\nSELECT * FROM no\nno statement\n")
    held = at_file(watching.socket)
    held.sendall(b"USER zoe\nCHECKPOINT\nEXPORT 9\n")
    held.makefile("rb").readline()
    time.sleep(0.2)
    wanted = {"edition": "0.1.0", "workers": 3, "changes_limit": 9, "journal_bytes": 0, "moment": 4, "sessions_open": 1,
        "sessions_begun": 4, "sessions_ended_by_fault": 0, "denied": {"11": 1, "14": 1, "17": 1}, "refused": {},
        "tables": 1, "rows": 1, "grants": 3, "checkpoints": 1, "lines_faulty": 1}
    said = {"create table": 1, "insert": 1, "grant": 1, "revoke": 1, "select": 2, "checkpoint": 1, "export": 1}
    seen = json.loads(watching.status("json")[1])
    for name, value in wanted.items():
        watching.check(f"status: {name}", seen[name] == value, seen)
    counted = {kind: count for kind, count in seen["statements"].items() if count}
    watching.check("status: statements", (counted, len(seen["statements"])) == (said, 11), seen)
    about = abs(seen["start_time_seconds"] - time.time()) < WAIT and 10**5 < seen["memory_bytes"] < 10**9
    watching.check("status: when and how large", about, seen)
    watching.check("status: the longest turn", 0 <= seen["longest_turn_microseconds"] < WAIT * 10**6, seen)
    text, lines = watching.status("text")[1].splitlines(), watching.status("prometheus")[1].splitlines()
    watching.check("status as text", {"edition 0.1.0", "moment 4", "statements insert 1", "denied 14 1"} <= {*text}, text)
    some = {"# TYPE sysr_moment gauge", "sysr_moment 4", "# TYPE sysr_statements_total counter",
        'sysr_statements_total{kind="insert"} 1', 'sysr_denied_total{code="14"} 1', 'sysr_info{edition="0.1.0"} 1'}
    form = re.compile(r'# TYPE sysr_\w+ (gauge|counter)|sysr_\w+(\{\w+="[^"]*"\})? \d+')
    watching.check("status for Prometheus", some <= {*lines} and all(map(form.fullmatch, lines)), lines)
    held.close()
    watching.stop()
    child.communicate(timeout=WAIT)
    seen = watching.status("text")
    watching.check("status of nobody", seen == (1, "", f"sysr: {watching.control}: no server listens there\n"), seen)


def wakes(process):
    """How often the threads of a process slept, so far."""
    return sum(int(line.split()[1]) for status in glob.glob(f"/proc/{process}/task/*/status") for line in open(status)
        if line.startswith("voluntary_ctxt_switches"))


def idle(watching):
    """A server that nobody asks for anything does nothing; and a checkpoint is taken as soon as it has begun."""
    child, _ = watching.serving("--socket", watching.socket, "--until-eof", stdin=subprocess.PIPE)
    client = at_file(watching.socket)
    with client, client.makefile("rb") as answers:
        def ask(line):
            client.sendall(line + b"\n")
            return answers.readline()

        said = [ask(line) for line in (b"USER ann", b"CREATE TABLE pay (name TEXT)", b"INSERT INTO pay VALUES ('Bo')")]
        taken = 0
        for number in range(1, 11):
            time.sleep(0.1)
            said.append(ask(b"CHECKPOINT"))
            time.sleep(0.005)
            said.append(ask(b"EXPORT %d" % number))
            taken += said[-1].startswith(b"export")
            while said[-1].startswith((b"export", b"table", b"row")):
                said.append(answers.readline())
        watching.check("exports that follow at once", taken > 7, said)
        time.sleep(0.3)
        before = wakes(child.pid)
        time.sleep(1)
        watching.check("an idle server", wakes(child.pid) == before, wakes(child.pid) - before)
    child.stdin.close()
    watching.check("at the end of its input", child.wait(timeout=WAIT) == 0, child.returncode)


def asked_often(watching):
    """While 16 clients send lines, it is asked 200 times how the server fares, within some seconds."""
    child, _ = watching.serving("--socket", watching.socket, "--workers", "16")
    lines = b"USER ann\n" + 2000 * b"CHECKPOINTS\n"
    told = []
    clients = [threading.Thread(target=lambda: told.append(answered(at_file(watching.socket), lines))) for _ in range(16)]
    for client in clients:
        client.start()
    begun = time.monotonic()
    seen = [answered(at_file(watching.control), b"STATUS json\n") for _ in range(200)]
    took = time.monotonic() - begun
    for client in clients:
        client.join()
    moments = [json.loads(line)["statements"]["checkpoints"] for line in seen]
    watching.check("asked often", moments == sorted(moments) and took < 20, (took, moments))
    watching.check("clients meanwhile", [len(it) for it in told] == 16 * [len("welcome ann\n") + 2000 * 17], [*map(len, told)])
    watching.stop()
    child.communicate(timeout=WAIT)


def denials(watching):
    words = ["--socket", watching.socket, "--log-denials", "--log-time", "--sessions", "2"]
    child, _ = watching.serving(*words)
    answered(at_file(watching.socket), SAID)
    answered(at_file(watching.socket), b"USER eve\nSELECT * FROM pay\nCHECKPOINTS\n")
    said = child.communicate(timeout=WAIT)[1].decode()
    time_of_day = r"\d{4}-\d\d-\d\dT\d\d:\d\d:\d\dZ "
    wanted = time_of_day + r"session 2 user eve: denied @2: eve lacks SELECT\(name\) on pay\n"
    watching.check("denials, with their time", re.fullmatch(wanted, said), said)


def played(program, check):
    with tempfile.TemporaryDirectory() as folder:
        watching = Watching(program, check, folder)
        socket_files(watching)
        socket_file_of_a_killed_server(watching)
        two_ports(watching)
        refused_words(watching)
        lent_sockets(watching)
        sockets_of_another_process(watching)
        figures(watching)
        idle(watching)
        asked_often(watching)
        denials(watching)
    Server.stop_all()
