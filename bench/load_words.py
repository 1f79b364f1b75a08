"""The command line of bench/load."""
from __future__ import annotations

import argparse
import re

from load_engine import KINDS, Work

ABOUT = """Loads a server of `sysr serve` with statements of many clients, and says how fast they were answered.

    bench/load --serve
    bench/load --port 7878 --clients 8 --pipeline 16 --seconds 30 --mix insert=70,select=20,update=5,delete=5
    bench/load --serve --statements 500000 --csv load.csv --plot load.svg

It makes a table (name TEXT, id INTEGER) with rows, has its owner share it with the other users, and lets clients send
statements of a mix by shares. What it makes stays in the server: there is no DROP TABLE.
"""

EXPLAINED = """
statements of the mix (shares are weights, drawn at random; with --statements equal seeds draw alike):
  insert   INSERT INTO load VALUES ('row n', n), of a new id n
  select   SELECT name FROM load WHERE id = n: a look-up by equality
  range    SELECT name FROM load WHERE id >= n AND id < n + width: goes over all rows
  update   UPDATE load SET name = 'row n v5' WHERE id = n, with a random version
  delete   DELETE FROM load WHERE id = n
  In the last four n is any id that was to be inserted so far, of the rows to begin with or by a client. One that was
  deleted, or not inserted yet, finds nothing.

what a latency is:
  A client writes --pipeline statements at once, reads all their replies, and goes on with the next ones. The latency
  of a statement is the time from the beginning of that write until the client has read the last line of its reply. So
  with --pipeline above 1 it contains the wait for the statements before it in the same write; `writes` is the time to
  the last reply of each.
  No rate is given: a client that waits sends nothing meanwhile. So a pause of the server counts once for each client,
  and not for all that would have been sent during it. What clients at a fixed rate would wait may be far longer.
  Percentiles come from a histogram: they are at most 1/128 (0.8 %) above the exact ones, and never below. `most` is
  exact.

what is checked:
  Each reply is one that its statement can have, in order: the first word, the moment (it never falls in a session, and
  rises with each change), and that each row has an id that was asked for. In the end the server's moment has risen by
  as many changes as were done, or more if others may use the server too. Else the run fails.
  `denied`, `refused` and `fault` count replies that begin so (`error` is a fault); the first of each is shown.

what the file of --csv has:
  A row for each interval and kind: its begin and end in seconds from the start; how many statements were answered, and
  of these good, denied, refused, fault; statements a second; percentiles and the most in microseconds.

limits:
  A server accepts as many changes as its --changes says, 1,000,000 where it is not given; then each further change is
  `refused: full`, and the count shows it.

status: 0 the run is complete, whatever was answered; 1 it failed, and standard error says why; 2 the command line
"""

NAME = re.compile(r"[a-z][a-z0-9_]{0,29}")


def between(least, most, number=int):
    """A type of argparse: a number from the least to the most."""
    def read(text):
        value = number(text)
        if not least <= value <= most:
            raise argparse.ArgumentTypeError(f"{text} is not from {least} to {most}")
        return value
    read.__name__ = "number"
    return read


def mix(text: str) -> dict[str, int]:
    """`insert=70,select=30` as a dictionary; shares of 0 are left out."""
    shares = {}
    for part in text.split(","):
        kind, _, share = part.partition("=")
        if kind not in KINDS or kind in shares or not re.fullmatch(r"[0-9]{1,6}", share):
            raise argparse.ArgumentTypeError(f"{part!r} is no share: each of {', '.join(KINDS)} stands at most once, "
                "with a whole number, as in insert=70")
        shares[kind] = int(share)
    if not any(shares.values()):
        raise argparse.ArgumentTypeError("all shares are 0")
    return {kind: share for kind, share in shares.items() if share}


def name(text: str) -> str:
    if not NAME.fullmatch(text.lower()):
        raise argparse.ArgumentTypeError(f"{text!r} is no name: a letter, then letters, digits or _, at most 30")
    return text.lower()


def names(text: str) -> list[str]:
    return [name(user) for user in text.split(",")]


def add_server(reader: argparse.ArgumentParser) -> None:
    to = reader.add_argument_group("the server")
    to.add_argument("--serve", action="store_true", help="start ./sysr serve on a free port of 127.0.0.1, and end it "
        "behind the run")
    to.add_argument("--host", default="127.0.0.1", help="where it listens; 127.0.0.1 where it is not given")
    to.add_argument("--port", type=between(1, 65535), help="its port; needed without --serve")
    to.add_argument("--journal", metavar="FILE", help="with --serve: the server writes its journal to this file")


def add_sent(reader: argparse.ArgumentParser) -> None:
    sent = reader.add_argument_group("what is sent")
    sent.add_argument("--clients", type=between(1, 16), default=4, help="from 1 to 16; 4")
    sent.add_argument("--pipeline", type=between(1, 10_000), default=1, help="statements of a client in one write; 1")
    ends = sent.add_mutually_exclusive_group()
    ends.add_argument("--seconds", type=between(0.1, 86_400, float), help="how long; 10")
    ends.add_argument("--statements", type=between(1, 10 ** 12), help="how many, of all clients together")
    sent.add_argument("--mix", type=mix, default="insert=5,select=90,update=5", help="shares; "
        "insert=5,select=90,update=5")
    sent.add_argument("--rows", type=between(0, 999_000), default=10_000, help="rows to begin with; 10000")
    sent.add_argument("--width", type=between(1, 1_000_000), default=10, help="ids of a range; 10")
    sent.add_argument("--seed", type=between(0, 2 ** 31), default=1, help="of what is drawn; 1")
    sent.add_argument("--timeout", type=between(1, 600), default=60, help="seconds that a reply may take before the "
        "run fails; 60")


def add_tables(reader: argparse.ArgumentParser) -> None:
    of = reader.add_argument_group("users and tables")
    of.add_argument("--users", type=names, help="names that the clients take in turn, as ann,bob; user1,user2,.. where "
        "they are not given. The first owns the table")
    of.add_argument("--table", type=name, default="load", help="its name; load")
    of.add_argument("--own-tables", action="store_true", help="a table for each client, load1, load2, ..")
    of.add_argument("--existing", action="store_true", help="use the table of an earlier run, and grant nothing; "
        "--rows says which ids it has")


def add_told(reader: argparse.ArgumentParser) -> None:
    told = reader.add_argument_group("what is told")
    told.add_argument("--interval", type=between(0.1, 3600, float), default=1.0, help="seconds between two rows of the "
        "file and two points of the plot; 1")
    told.add_argument("--csv", metavar="FILE", help="write a row for each interval and kind")
    told.add_argument("--plot", metavar="FILE.svg", help="draw the rate and the latencies over time")


def arguments(words: list[str]) -> argparse.Namespace:
    """What the words say. SystemExit: they say nothing, or ask for help."""
    reader = argparse.ArgumentParser(prog="bench/load", usage="bench/load (--serve | --port PORT) [options]",
        description=ABOUT, epilog=EXPLAINED, formatter_class=argparse.RawDescriptionHelpFormatter)
    for add in (add_server, add_sent, add_tables, add_told):
        add(reader)
    given = reader.parse_args(words)
    if given.serve == (given.port is not None):
        reader.error("one of --serve and --port is needed")
    if given.journal and not given.serve:
        reader.error("--journal needs --serve")
    return given


def work_of(given: argparse.Namespace, port: int) -> Work:
    """The work that was asked for, at a server of this port."""
    return Work(port=port, users=given.users or [f"user{n + 1}" for n in range(given.clients)], mix=given.mix,
        host="127.0.0.1" if given.serve else given.host, clients=given.clients, pipeline=given.pipeline,
        statements=given.statements or 0, seconds=0.0 if given.statements else given.seconds or 10.0,
        interval=given.interval, timeout=given.timeout, rows=given.rows, width=given.width, seed=given.seed,
        table=given.table, own_tables=given.own_tables)
