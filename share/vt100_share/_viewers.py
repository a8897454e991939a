"""A viewer: what it has displayed, and what it may be sent."""

from __future__ import annotations

import hmac
import os
import re
import secrets
import time
from typing import Callable, NamedTuple, Optional, Tuple

from . import _messages as messages
from ._messages import Nonsense

#: The number of unacknowledged bytes from which on a viewer gets no more updates.
WINDOW = 8192

#: How many messages and bytes a viewer may send per second on average, and how many at once.
MESSAGE_RATE, MESSAGE_BURST = 200.0, 600.0
BYTE_RATE, BYTE_BURST = 65536.0, 262144.0


#: The fewest characters of a token that is given.
_MIN_TOKEN = 16

_TOKEN = re.compile(r"[\w-]*", re.ASCII)


class BadToken(Exception):
    """Raised for a token that can be guessed or cannot be part of an address."""


def new_token() -> str:
    return secrets.token_urlsafe(18)


def token_from(name: str) -> Optional[str]:
    """Returns the token in an environment variable, or None if there is none."""
    token = os.environ.get(name)
    if token and (len(token) < _MIN_TOKEN or _TOKEN.fullmatch(token) is None):
        raise BadToken(
            f"${name} must have at least {_MIN_TOKEN} characters: letters, digits, '-' and '_'"
        )
    return token or None


class Tokens:
    """The tokens that allow to read and, unless there is none, to write. They are random unless
    they are given."""

    def __init__(
        self, can_write: bool, read: Optional[str] = None, write: Optional[str] = None
    ) -> None:
        self.read = read or new_token()
        self.write = (write or new_token()) if can_write else None
        if self.read == self.write:
            raise BadToken("the tokens for reading and for writing must differ")

    def check(self, token: bytes) -> Optional[bool]:
        """Returns whether a token allows to write, or None if it is wrong. Takes the same time for
        all wrong tokens."""
        writes = hmac.compare_digest(token, (self.write or new_token()).encode())
        reads = hmac.compare_digest(token, self.read.encode())
        if self.write is not None and writes:
            return True
        return False if reads else None


class Notes(NamedTuple):
    """What viewers get besides the screen: whether the screen may be old, whether it is the
    alternate one, the number of the title, and how many viewers and writers there are."""

    is_stale: bool = False
    is_alternate: bool = False
    title_number: int = 0
    counts: Tuple[int, int] = (0, 0)


class Viewer:
    """A viewer whose token was right.

    `send` sends a message that is not acknowledged. Who sets `is_drained` says whether all that was
    sent has left the process. `read_len` is the number of bytes that the viewer has acknowledged.
    """

    __slots__ = (
        *("may_write", "version", "row", "notes", "is_behind", "has_end", "is_drained", "send"),
        *("read_len", "_sent", "_typed", "_taken", "_messages_left", "_bytes_left", "_at"),
    )

    def __init__(self, may_write: bool, send: Callable[[bytes], None]) -> None:
        self.may_write = may_write
        self.version: Optional[int] = None
        self.row: Optional[int] = None
        self.notes = Notes()
        self.is_behind = False
        self.has_end = False
        self.is_drained = True
        self.send = send
        self.read_len = self._sent = 0
        self._typed = self._taken = 0
        self._messages_left, self._bytes_left = MESSAGE_BURST, BYTE_BURST
        self._at = time.monotonic()

    @property
    def has_room(self) -> bool:
        """Whether the viewer has read enough of what it was sent to get more."""
        return self.is_drained and self._sent - self.read_len <= WINDOW

    def send_screen(self, message: bytes, version: int) -> None:
        """Sends an update or a redraw, which must be acknowledged."""
        self.version = version
        self._sent += len(message)
        self.send(message)

    def send_rows(self, message: bytes, end: int) -> None:
        """Sends rows that have scrolled off, up to the one before `end`, which must be
        acknowledged."""
        self.row = end
        self._sent += len(message)
        self.send(message)

    def receive(self, message: bytes) -> Optional[bytes]:
        """Takes a message of the viewer. Returns what was typed, or None for an acknowledgement.
        Raises `Nonsense` if the viewer may not send this message, or sends too much."""
        self.take(len(message))
        kind = message[:1]
        if kind == b"a":
            self._acknowledge(messages.count_of(message[1:]))
            return None
        if kind == b"i" and self.may_write:
            self._typed += len(message)
            if self.untaken_len > messages.MAX_UNTAKEN:
                raise Nonsense("more was typed than the program has taken")
            return message[1:]
        raise Nonsense("not a message of a viewer")

    @property
    def untaken_len(self) -> int:
        """The number of bytes of input that the viewer has not been told to be taken."""
        return self._typed - self._taken

    def send_taken(self) -> None:
        """Tells the viewer that all that it has typed was taken."""
        self._taken = self._typed
        self.send(messages.taken(self._taken))

    def take(self, count: int) -> None:
        """Takes a message with `count` bytes from what the viewer may send. Raises `Nonsense` if
        that is too much."""
        now = time.monotonic()
        passed, self._at = now - self._at, now
        may_send = min(MESSAGE_BURST, self._messages_left + passed * MESSAGE_RATE) - 1
        may_fill = min(BYTE_BURST, self._bytes_left + passed * BYTE_RATE) - count
        self._messages_left, self._bytes_left = may_send, may_fill
        if may_send < 0 or may_fill < 0:
            raise Nonsense("too many messages")

    def _acknowledge(self, count: int) -> None:
        more = (count - self.read_len) % messages.COUNT_MODULUS
        if more > self._sent - self.read_len:
            raise Nonsense("more is acknowledged than was sent")
        self.read_len += more
