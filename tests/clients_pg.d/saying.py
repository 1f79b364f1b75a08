"""What the clients in Python say: a line for each step, its name and what came of it with a tab before each."""
import os
import sys

PORT, USER, ODD = sys.argv[1:]
TABLE = f"t_{USER}"
# What is asked that is refused, by the step's name.
REFUSED = dict(line.split("\t") for line in os.environ["REFUSED"].splitlines())


def password_of(user):
    return f"pw-of-{user}"


def said(step, *fields):
    print("\t".join([step, *map(str, fields)]), flush=True)


def flat(rows):
    return [value for row in rows for value in row]


def code_of(error, name, work):
    """The SQLSTATE that the client shows, or what was given in its place."""
    try:
        return f"nothing raised, {work()!r}"
    except error as why:
        return getattr(why, name) or " ".join(str(why).split("\n"))
