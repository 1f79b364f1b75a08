"""SCRAM-SHA-256 (RFC 5802, RFC 7677) by Python's own library: a second implementation, which the program's is compared
with, and what fake servers log in by. A text has a character for each of its bytes (Latin-1).
"""
import base64
import functools
import hashlib
import hmac
import re

SCHEME, ITERATIONS = "SCRAM-SHA-256", 4096
# The bytes of a line of a login.
LONGEST = 1024
VERIFIER = re.compile(r"SCRAM-SHA-256\$([1-9][0-9]*):([A-Za-z0-9+/=]+)\$([A-Za-z0-9+/=]+):([A-Za-z0-9+/=]+)")
KEYWORDS = frozenset("""AND CHECKPOINT CHECKPOINTS CREATE DELETE EXPORT FOR FROM GRANT INSERT INTEGER INTO ON ONLY
    OPTION REVOKE SELECT SET TABLE TEXT TO UPDATE VALUES WHERE WITH""".split())
OPENING = re.compile("LOGIN ([A-Za-z][A-Za-z0-9_]{0,29}) (.*)", re.DOTALL)
FIRST = re.compile(r"([ny],,)(n=[^,]*,r=([!-+\--~]+))")
CHALLENGE = re.compile(r"r=([!-+\--~]+),s=([A-Za-z0-9+/=]+),i=([1-9][0-9]*)")


def digest(key, text):
    return hmac.new(key, text, hashlib.sha256).digest()


def in_base64(some):
    return base64.b64encode(some).decode()


def exclusive_or(some, other):
    return bytes(one ^ another for one, another in zip(some, other))


@functools.lru_cache(maxsize=None)
def keys(password, salt, iterations=ITERATIONS):
    """ClientKey, StoredKey and ServerKey."""
    salted = hashlib.pbkdf2_hmac("sha256", password.encode(), salt, iterations)
    client = digest(salted, b"Client Key")
    return client, hashlib.sha256(client).digest(), digest(salted, b"Server Key")


def verifier(password, salt, iterations=ITERATIONS):
    """The text that PostgreSQL keeps of a password."""
    _, stored, server = keys(password, salt, iterations)
    return f"{SCHEME}${iterations}:{in_base64(salt)}${in_base64(stored)}:{in_base64(server)}"


def opened(line):
    """The user whom a first line names, and his first message; or None, where it begins no login."""
    read = OPENING.fullmatch(line)
    if not read or read[1].upper() in KEYWORDS or len(line) > LONGEST or not FIRST.fullmatch(read[2]):
        return None
    return read[1].lower(), read[2]


class Kept:
    """What a server keeps of a user, of the text of it."""

    def __init__(self, text):
        iterations, self.salt, stored, server = VERIFIER.fullmatch(text).groups()
        self.iterations = int(iterations)
        self.stored, self.server = base64.b64decode(stored), base64.b64decode(server)


class Exchange:
    """One login by this verifier, with this nonce of the server. Its answers are None where the login is refused."""

    def __init__(self, kept, own):
        self.kept, self.own = Kept(kept), own

    def challenge(self, first):
        read = FIRST.fullmatch(first)
        if not read:
            return None
        header, self.bare, nonce = read.groups()
        self.nonce, self.binding = nonce + self.own, in_base64(header.encode())
        self.said = f"r={self.nonce},s={self.kept.salt},i={self.kept.iterations}"
        return self.said

    def answer(self, last):
        front, _, proof = last.rpartition(",p=")
        if front != f"c={self.binding},r={self.nonce}" or len(last) > LONGEST:
            return None
        said = f"{self.bare},{self.said},{front}".encode("latin-1")
        try:
            shown = base64.b64decode(proof, validate=True)
        except ValueError:
            return None
        # (of each proof one text is taken, though others are decoded to the same bytes)
        if len(shown) != 32 or in_base64(shown) != proof:
            return None
        key = exclusive_or(shown, digest(self.kept.stored, said))
        if hashlib.sha256(key).digest() != self.kept.stored:
            return None
        return f"v={in_base64(digest(self.kept.server, said))}"


def first_message(nonce, name="", header="n,,"):
    """A client's first message."""
    return f"{header}n={name},r={nonce}"


class Claim:
    """What a client says behind its first message: its last one; and the answer that it then wants."""

    def __init__(self, password, first):
        self.password, self.first = password, first
        self.header, self.bare, self.nonce = FIRST.fullmatch(first).groups()

    def last(self, challenge):
        nonce, salt, iterations = CHALLENGE.fullmatch(challenge).groups()
        front = f"c={in_base64(self.header.encode())},r={nonce}"
        return self.proved(challenge, front, *keys(self.password, base64.b64decode(salt), int(iterations)))

    def proved(self, challenge, front, client, stored, server):
        """The last message with this front, by these keys."""
        said = f"{self.bare},{challenge},{front}".encode("latin-1")
        self.wanted = f"v={in_base64(digest(server, said))}"
        return f"{front},p={in_base64(exclusive_or(client, digest(stored, said)))}"
