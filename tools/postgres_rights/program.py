"""The program sysr, and the answers of `sysr explain`."""
import csv
import io
import os
import subprocess

from postgres_rights.wording import fail

SYSR = os.path.join(os.path.dirname(os.path.dirname(os.path.dirname(os.path.abspath(__file__)))), "sysr")


def run_sysr(sysr: str, words: list[str], given: bytes = b"") -> tuple[int, bytes, str]:
    """The program's status and what it writes, output and error. Ends the tool if there is no such program."""
    try:
        done = subprocess.run([sysr, *words], input=given, capture_output=True)
    except OSError as why:
        fail(f"{sysr}: {why.strerror}")
    return done.returncode, done.stdout, done.stderr.decode(errors="replace").strip()


def explained(sysr: str, words: list[str], given: bytes) -> list[dict[str, str]]:
    """The records of an answer of `sysr explain` about these lines. Ends the tool if there is no answer."""
    status, out, why = run_sysr(sysr, ["explain", "--format", "csv", *words], given)
    if status:
        fail(why)
    return [*csv.DictReader(io.StringIO(out.decode(), newline=""))]
