"""A PostgreSQL server for a benchmark, where it is installed."""
import contextlib
import glob
import os
import subprocess


@contextlib.contextmanager
def running(work, settings=""):
    """The words that begin a command of PostgreSQL's as its user, and the folder of its commands; or None.

    The server listens in the folder `work` alone, unless the settings name an address, and waits for no disk where
    they say so.
    """
    found = sorted(glob.glob("/usr/lib/postgresql/*/bin/pg_ctl"))
    if not found:
        yield None
        return
    folder, data = os.path.dirname(found[-1]), os.path.join(work, "data")
    # PostgreSQL does not run as root.
    user = ["runuser", "-u", "postgres", "--"] if os.geteuid() == 0 else []
    quiet = {"stdout": subprocess.DEVNULL, "stderr": subprocess.DEVNULL, "check": True}
    os.chmod(work, 0o777)
    subprocess.run([*user, f"{folder}/initdb", "-A", "trust", "-D", data], **quiet)
    options = f"-c listen_addresses='' -k {work} {settings}"
    subprocess.run([*user, f"{folder}/pg_ctl", "-w", "-D", data, "-o", options, "start"], **quiet)
    try:
        yield user, folder
    finally:
        subprocess.run([*user, f"{folder}/pg_ctl", "-m", "immediate", "-D", data, "stop"], **quiet)
