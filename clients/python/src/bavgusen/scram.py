"""A login by SCRAM-SHA-256 (RFC 5802, RFC 7677): it shows that it knows the password, and never sends it."""
from __future__ import annotations

import base64
import binascii
import hashlib
import hmac
import re
import secrets
from typing import Optional

from .errors import LoginError, ProgrammingError, ProtocolError

# What RFC 7677 asks for at least, since who has heard a login tries passwords at this cost; and what takes seconds.
LEAST_ITERATIONS, MOST_ITERATIONS = 4096, 10_000_000
NONCE_BYTES = 18

# (a nonce is of printable ASCII but for the blank and the comma)
_CHALLENGE = re.compile(r"r=([!-+\--~]+),s=([A-Za-z0-9+/]*={0,2}),i=([1-9][0-9]{0,9})")


class Login:
    """One login with a password. Its messages go in turn: `first`, `last` of the challenge, and then `is_signed`.

    A `ProgrammingError` is raised of a password that is empty or has other than printable ASCII: of all others the
    standard would have other bytes hashed (SASLprep, RFC 4013). `nonce` is for tests alone.
    """

    def __init__(self, password: str, nonce: Optional[str] = None) -> None:
        if not isinstance(password, str) or not re.fullmatch("[ -~]+", password):
            raise ProgrammingError("a password is of printable ASCII, and not empty")
        self._password = password.encode()
        self._nonce = nonce or base64.b64encode(secrets.token_bytes(NONCE_BYTES)).decode()
        self._bare = f"n=,r={self._nonce}"
        self._signature: Optional[bytes] = None

    @property
    def first(self) -> str:
        """The client's first message. The channel is not bound, and the name is told beside it."""
        return f"n,,{self._bare}"

    def last(self, challenge: str) -> str:
        """The client's last message, with its proof.

        It is a `ProtocolError` where the challenge is none, or has another nonce than this login's and more behind it;
        and a `LoginError` where it wants too few or too many iterations. Then nothing of the password is told.
        """
        read = _CHALLENGE.fullmatch(challenge)
        if not read:
            raise ProtocolError(f"no challenge of a login: {challenge[:80]!r}")
        nonce, salt, iterations = read[1], _bytes(read[2]), int(read[3])
        if not nonce.startswith(self._nonce) or nonce == self._nonce:
            raise ProtocolError("a challenge of another login: it has not this login's nonce and one of the server's")
        if not LEAST_ITERATIONS <= iterations <= MOST_ITERATIONS:
            raise LoginError(f"the server asks for {iterations:,} iterations of the password's hash: "
                f"{LEAST_ITERATIONS:,} to {MOST_ITERATIONS:,} are taken")
        salted = hashlib.pbkdf2_hmac("sha256", self._password, salt, iterations)
        front = f"c=biws,r={nonce}"
        said = f"{self._bare},{challenge},{front}".encode()
        key = _hmac(salted, b"Client Key")
        mask = _hmac(hashlib.sha256(key).digest(), said)
        proof = bytes(one ^ other for one, other in zip(key, mask))
        self._signature = _hmac(_hmac(salted, b"Server Key"), said)
        return f"{front},p={base64.b64encode(proof).decode()}"

    def is_signed(self, told: str) -> bool:
        """Whether this is the server's last message, signed by who knows this user's verifier. Before `last`, none is.
        """
        if self._signature is None:
            return False
        wanted = f"v={base64.b64encode(self._signature).decode()}"
        return hmac.compare_digest(told.encode(), wanted.encode())


def _hmac(key: bytes, text: bytes) -> bytes:
    return hmac.new(key, text, hashlib.sha256).digest()


def _bytes(text: str) -> bytes:
    try:
        return base64.b64decode(text, validate=True)
    except binascii.Error:
        raise ProtocolError(f"no challenge of a login: its salt is no base64: {text[:80]!r}") from None
