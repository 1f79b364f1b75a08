"""The program as a newcomer meets it: a look before any proof, `run` alone as soon as that is proved, and the rest when
a command needs it. What is proved and built is the programs of the gate: a script in place of tools/build-sysr brings
them, and notes what it was called for.
"""
import os
import shutil
import subprocess
import tempfile
import time

ALONE, WHOLE = os.path.join("crates", "sysr_run", "out", "sysr_run"), os.path.join("crates", "sysr", "out", "sysr")
BUILDING = "sysr: proving and building the program (the first time takes some minutes)\n"
RUN_IS_PROVED = "sysr: run is proved; ./sysr build proves the rest, or the first command that needs it\n"
UNPROVED = "sysr: NOTHING OF THIS PROGRAM IS PROVED"
SCRIPT = b"ann: CREATE TABLE pay (wage INTEGER)\nann: INSERT INTO pay VALUES (7)\nann: SELECT * FROM pay\n"
ANSWERS = "done @1\ndone @2\nrows 1 @2\nrow,7\n"
# Notes its words, and brings the program that they ask for, or all; with a file `fails` beside it proves nothing.
BUILD = """#!/bin/sh
cd "$(dirname "$0")/.." || exit 1
echo "built $*" >> calls
[ ! -e fails ] || {{ echo "sysr: the program was not built" >&2; exit 1; }}
mkdir -p crates/sysr_run/out crates/sysr/out
cp {root}/{alone} {alone}
[ $# -gt 0 ] || cp {root}/{whole} {whole}
"""
# A kit whose rt has none of the functions that tools/build-sysr takes, and as a command does nothing.
OTHER_RT = "#!/usr/bin/env python3\n"


class Checkout:
    """A folder that looks like a fresh clone, in which proofs take no time."""

    def __init__(self, root, folder, check):
        self.root, self.folder, self.check = root, folder, check
        for name in ("crates/sysr/src", "crates/sysr_run/src", "tools"):
            os.makedirs(os.path.join(folder, name))
        shutil.copy(os.path.join(root, "sysr"), folder)
        for name in ("crates/sysr/src/main.rt", "crates/sysr_run/src/main.rt", "crates.txt"):
            shutil.copy(os.path.join(root, name), os.path.join(folder, name))
        self.write("tools/build-sysr", BUILD.format(root=root, alone=ALONE, whole=WHOLE))
        os.chmod(os.path.join(folder, "tools", "build-sysr"), 0o755)

    def write(self, name, text=""):
        with open(os.path.join(self.folder, name), "w", encoding="utf-8") as file:
            file.write(text)

    def change_a_source(self):
        """What was built is older than a source."""
        now = time.time()
        os.utime(os.path.join(self.folder, "crates", "sysr", "src", "main.rt"), (now - 50, now - 50))
        for program in (ALONE, WHOLE):
            os.utime(os.path.join(self.folder, program), (now - 100, now - 100))

    def calls(self):
        path = os.path.join(self.folder, "calls")
        if not os.path.exists(path):
            return []
        with open(path, encoding="utf-8") as file:
            calls = file.read().splitlines()
        os.remove(path)
        return calls

    def plays(self, name, words, wanted, calls):
        """The command ends with this status, output and error, and had these things built."""
        how = {"input": SCRIPT, "capture_output": True, "cwd": self.folder, "timeout": 60}
        done = subprocess.run([os.path.join(self.folder, "sysr"), *words], **how)
        seen = done.returncode, done.stdout.decode(), done.stderr.decode()
        self.check(f"newcomer, {name}", (seen, self.calls()) == (wanted, calls), seen)


def a_first_day(at):
    at.plays("run on a fresh clone", ["run"], (0, ANSWERS, BUILDING + RUN_IS_PROVED), ["built run"])
    at.plays("run again", ["run"], (0, ANSWERS, ""), [])
    at.plays("the first command that needs the rest", ["--version"], (0, "sysr 0.1.0\n", BUILDING), ["built "])
    at.plays("run by the whole program", ["run"], (0, ANSWERS, ""), [])
    at.plays("run with an option", ["run", "--chunk", "1"], (0, ANSWERS, ""), [])


def a_change(at):
    at.change_a_source()
    at.plays("run behind a change", ["run"], (0, ANSWERS, BUILDING + RUN_IS_PROVED), ["built run"])
    at.plays("build behind a change", ["build"], (0, "", BUILDING), ["built "])
    at.plays("build with nothing to do", ["build"], (0, "", ""), [])


def a_proof_that_fails(at):
    at.change_a_source()
    at.write("fails")
    told = BUILDING + "sysr: the program was not built\n"
    at.plays("run that is not proved", ["run"], (1, "", told), ["built run"])
    at.plays("a program that is not proved", ["--version"], (1, "", told), ["built "])


def another_kit(root, folder, check):
    """Where rt's modules are not those that the order is made by, rt's own order is taken, and that is told."""
    path = os.path.join(folder, "rt")
    with open(path, "w", encoding="utf-8") as file:
        file.write(OTHER_RT)
    os.chmod(path, 0o755)
    words = [os.path.join(root, "tools", "build-sysr"), "run"]
    env = {**os.environ, "PATH": f"{folder}{os.pathsep}{os.environ['PATH']}"}
    done = subprocess.run(words, capture_output=True, env=env, timeout=60, text=True)
    told = "so it proves by its own" in done.stderr and done.stderr.endswith("sysr: sysr_run is proved\n")
    check("newcomer, a kit of another form", done.returncode == 0 and told, (done.returncode, done.stderr))


def a_look_before_any_proof(root, check):
    words = [os.path.join(root, "sysr"), "--unproved", "run"]
    done = subprocess.run(words, input=SCRIPT, capture_output=True, timeout=1800)
    err = done.stderr.decode()
    good = (done.returncode, done.stdout.decode(), err.startswith(UNPROVED)) == (0, ANSWERS, True)
    check("newcomer, a look before any proof", good, (done.returncode, done.stdout, err[-2000:]))


def played(root, check):
    with tempfile.TemporaryDirectory() as folder:
        at = Checkout(root, os.path.join(folder, "clone"), check)
        a_first_day(at)
        a_change(at)
        a_proof_that_fails(at)
        another_kit(root, folder, check)
    a_look_before_any_proof(root, check)
