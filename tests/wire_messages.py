"""PostgreSQL's protocol 3.0 by Python's own library: what clients send, and sessions that read what is answered.

A message that was read is a pair: its type, which is one byte, and its body.
"""
import contextlib
import os
import socket
import struct
import subprocess
import time

import scram
from served import WAIT, Server, free_port

VERSION, SSL, GSS, CANCEL = 196608, 80877103, 80877104, 80877102


def int16(number):
    return struct.pack("!H", number & 0xFFFF)


def int32(number):
    return struct.pack("!I", number & 0xFFFFFFFF)


def int64(number):
    return struct.pack("!q", number)


def string(*texts):
    """Each text with a zero byte behind it."""
    return b"".join((text if isinstance(text, bytes) else text.encode()) + b"\0" for text in texts)


def counted(items):
    return int16(len(items)) + b"".join(items)


def value(some):
    """A value of a Bind, or NULL."""
    if some is None:
        return int32(-1)
    raw = some if isinstance(some, bytes) else str(some).encode()
    return int32(len(raw)) + raw


def message(kind, body=b""):
    return kind + int32(4 + len(body)) + body


def first_message(code, body=b""):
    """One without a type, as a client sends first."""
    return int32(8 + len(body)) + int32(code) + body


def startup(user, **more):
    pairs = {"user": user, "database": "x", **more}
    return first_message(VERSION, string(*(word for pair in pairs.items() for word in pair)) + b"\0")


def query(text):
    return message(b"Q", string(text))


def parse(text, name="", types=()):
    return message(b"P", string(name, text) + counted([int32(oid) for oid in types]))


def bind(values=(), name="", portal="", formats=(), results=()):
    return message(b"B", string(portal, name) + counted([int16(code) for code in formats])
        + counted([value(some) for some in values]) + counted([int16(code) for code in results]))


def describe(name="", kind=b"P"):
    return message(b"D", kind + string(name))


def execute(portal="", most=0):
    return message(b"E", string(portal) + int32(most))


def close(name="", kind=b"S"):
    return message(b"C", kind + string(name))


def initial(first, mechanism=scram.SCHEME):
    """The first message of a login, with the mechanism that it names."""
    return message(b"p", string(mechanism) + value(first))


def proving(last):
    """The last message of a login."""
    return message(b"p", last.encode())


FLUSH, SYNC, TERMINATE = message(b"H"), message(b"S"), message(b"X")
# What asks for a login.
LOGIN_ASKED = (b"R", int32(10) + string(scram.SCHEME) + b"\0")


def fields_of(body):
    """The fields of an error or a notice, by their letters."""
    return {field[:1].decode(): field[1:].decode(errors="replace") for field in body.split(b"\0") if field}


def row_of(body):
    """The values of a DataRow, None for NULL."""
    row, at = [], 2
    for _ in range(struct.unpack("!H", body[:2])[0]):
        length = struct.unpack("!i", body[at:at + 4])[0]
        row.append(None if length < 0 else body[at + 4:at + 4 + length])
        at += 4 + max(length, 0)
    return row


def columns_of(body):
    """The columns of a RowDescription: the name, the number of the type, the size and the format of each."""
    columns, rest = [], body[2:]
    while rest:
        name, _, rest = rest.partition(b"\0")
        columns.append((name.decode(), *struct.unpack("!6xIh4xH", rest[:18])))
        rest = rest[18:]
    return columns


def built(given):
    """The program that is given, or that of ./sysr, which builds it where it is missing."""
    if given is None:
        root = os.path.dirname(os.path.dirname(os.path.abspath(__file__)))
        subprocess.run([os.path.join(root, "sysr"), "--help"], stdout=subprocess.DEVNULL, check=True)
        given = os.path.join(root, "crates", "sysr", "out", "sysr")
    return os.path.abspath(given)


def at_ports(program, more, workers=4, **started):
    """A server that listens at a port and at one for PostgreSQL's clients, and the latter."""
    port = free_port()
    return Server(program, None, workers=workers, more=["--pg-port", str(port), *more], **started), port


class Ended(Exception):
    """The server has ended the connection."""


class Wire:
    """A connection that speaks the protocol."""

    def __init__(self, port, sent=b""):
        # (the port may be listened at a little later than the server says of its other one)
        late = time.monotonic() + WAIT
        while True:
            try:
                self.client = socket.create_connection(("127.0.0.1", port), timeout=WAIT)
                break
            except ConnectionRefusedError:
                if time.monotonic() > late:
                    raise
                time.sleep(0.05)
        self.client.setsockopt(socket.IPPROTO_TCP, socket.TCP_NODELAY, 1)
        self.reader = self.client.makefile("rb")
        self.send(sent)

    def send(self, *raw):
        self.client.sendall(b"".join(raw))

    def read(self):
        """The type and the body of the next message."""
        head = self.reader.read(5)
        if len(head) < 5:
            raise Ended(head)
        length = struct.unpack("!I", head[1:])[0]
        body = self.reader.read(length - 4)
        if len(body) < length - 4:
            raise Ended(head + body)
        return head[:1], body

    def read_no(self):
        """The one byte that refuses encryption."""
        return self.reader.read(1), b""

    def until(self, *last):
        """The messages up to the first that is one of these, or to the end of the connection."""
        seen = []
        with contextlib.suppress(Ended, ConnectionResetError):
            while not seen or seen[-1][0] not in last and seen[-1] not in last:
                seen.append(self.read())
        return seen

    def to_end(self):
        """All that comes up to the end of the connection."""
        return self.until()

    def until_ready(self):
        return self.until(b"Z")

    def ask(self, *raw):
        self.send(*raw)
        return self.until_ready()

    def query(self, text):
        return self.ask(query(text))

    def rows(self, text):
        """The values of all rows of a query, as texts."""
        rows = [row_of(body) for kind, body in self.query(text) if kind == b"D"]
        return [[some if some is None else some.decode() for some in row] for row in rows]

    def enter(self, user, password=None):
        """What is answered to a start, behind a login where one is wanted. `claim` has then what was claimed."""
        seen = self.ask_start(startup(user))
        if seen[-1:] == [LOGIN_ASKED] and password is not None:
            self.claim = scram.Claim(password, scram.first_message("fyko+d2lbbFgONRv9qkxdawL"))
            self.send(initial(self.claim.first))
            seen += self.until(b"R")
            if seen[-1][0] == b"R":
                self.send(proving(self.claim.last(seen[-1][1][4:].decode())))
                seen += self.until_ready()
        return seen

    def ask_start(self, raw):
        """What is answered to a start: up to the first ReadyForQuery, or the message that asks for a login."""
        self.send(raw)
        return self.until(b"Z", LOGIN_ASKED)

    def close(self):
        with contextlib.suppress(OSError):
            self.reader.close()
            self.client.close()

    def end(self):
        with contextlib.suppress(OSError):
            self.send(TERMINATE)
        self.close()

    def __enter__(self):
        return self

    def __exit__(self, *_):
        self.end()


def welcomed(port, user, password=None):
    """A session of this user, who may ask."""
    wire = Wire(port)
    seen = wire.enter(user, password)
    if not seen or seen[-1][0] != b"Z":
        wire.close()
        raise Ended(seen)
    return wire


def codes_of(seen):
    """The SQLSTATE of each error in messages."""
    return [fields_of(body)["C"] for kind, body in seen if kind == b"E"]


def kinds_of(seen):
    return b"".join(kind for kind, _ in seen).decode()


def said(port, pieces):
    """All that is answered to these pieces, behind which nothing comes."""
    client = socket.create_connection(("127.0.0.1", port), timeout=WAIT)
    client.setsockopt(socket.IPPROTO_TCP, socket.TCP_NODELAY, 1)
    told = []
    with client:
        # (the server may have ended the session before)
        with contextlib.suppress(OSError):
            for number, piece in enumerate(pieces):
                # (so that the server has read one before the next)
                time.sleep(0.001 if number else 0)
                client.sendall(piece)
            client.shutdown(socket.SHUT_WR)
        with contextlib.suppress(ConnectionError):
            while piece := client.recv(65_536):
                told.append(piece)
    return b"".join(told)
