"""The messages between server and viewers. Each is a binary message of a WebSocket whose first byte
is its kind.

From the server to a viewer:

    F rows(2) cols(2) text   a new terminal of this size reads the text
    D text                   the terminal reads the text
    H number(4) count(2) cols(2) text
                             rows have scrolled off: the number of the first one, modulo 2**32, and
                             how many. A blank terminal with this number of columns and as many rows
                             as the screen, whose cursor is in its first row and column, reads the
                             text: the rows are those that scroll off it, and then those above its
                             cursor
    W 0 or 1                 whether the viewer may type; the first message, and sent again after a
                             change
    A 0 or 1                 whether the program displays the alternate screen
    I count(4)               how many bytes of messages i have been taken, modulo 2**32
    T text                   the title of the window
    V viewers(4) writers(4)  how many viewers there are, and how many of them may type
    S 0 or 1                 whether the screen may be older than the program's: what it comes from
                             is out of reach
    X digits                 the program has ended with this status

From a viewer to the server:

    t token                  the first message: what the address has in its fragment
    a count(4)               how many bytes of messages F, D and H the viewer has read, modulo 2**32
    i text                   what was typed. Of these messages, no more than `MAX_UNTAKEN` bytes may
                             wait to be taken

Numbers are big-endian.
"""

from __future__ import annotations

import struct
from typing import NamedTuple, Sequence, Tuple

#: The longest message that a viewer may send.
MAX_RECEIVED = 16384

#: How many bytes of input a viewer may send before the server has taken them.
MAX_UNTAKEN = 32768

#: The longest title that is sent, in bytes.
MAX_TITLE = 512

#: The number of bytes of an unfinished command after which a terminal gets `CANCEL`.
MAX_COMMAND, CANCEL = 1 << 20, b"\x18"

#: The largest size of a terminal.
MAX_ROWS, MAX_COLS = 500, 1000

_SIZE = struct.Struct(">HH")
_COUNT = struct.Struct(">I")
_ROWS = struct.Struct(">IHH")
_COUNTS = struct.Struct(">II")
COUNT_MODULUS = 1 << 32


class Row(NamedTuple):
    """A row that has scrolled off: the number of columns that the screen had, and the text, which
    moves a terminal to the next row, too."""

    cols: int
    text: bytes


class Nonsense(Exception):
    """Raised for a message that no server and no viewer of this version sends."""


def redraw(rows: int, cols: int, text: bytes) -> bytes:
    return b"F" + _SIZE.pack(rows, cols) + text


def update(text: bytes) -> bytes:
    return b"D" + text


def history(number: int, rows: Sequence[Row]) -> bytes:
    """Returns the message for rows with equal numbers of columns, of which there may be none."""
    cols = rows[0].cols if rows else 1
    head = _ROWS.pack(number % COUNT_MODULUS, len(rows), cols)
    return b"H" + head + b"".join(row.text for row in rows)


def may_write(is_allowed: bool) -> bytes:
    return b"W1" if is_allowed else b"W0"


def alternate(is_alternate: bool) -> bytes:
    return b"A1" if is_alternate else b"A0"


def taken(count: int) -> bytes:
    return b"I" + _COUNT.pack(count % COUNT_MODULUS)


def title(text: bytes) -> bytes:
    """Returns the message for a title, without controls and malformed UTF-8."""
    printable = "".join(filter(str.isprintable, text[:MAX_TITLE].decode(errors="replace")))
    # U+FFFD takes more bytes than the one that it replaces.
    return b"T" + printable.encode()[:MAX_TITLE].decode(errors="ignore").encode()


def counts(viewers: int, writers: int) -> bytes:
    return b"V" + _COUNTS.pack(viewers, writers)


def stale(is_stale: bool) -> bytes:
    return b"S1" if is_stale else b"S0"


def ended(status: int) -> bytes:
    return b"X%d" % status


def acknowledgement(count: int) -> bytes:
    return b"a" + _COUNT.pack(count % COUNT_MODULUS)


def count_of(body: bytes) -> int:
    """Returns the number in a message a or I, given without its first byte."""
    (count,) = _unpacked(_COUNT, body)
    return count


def counts_of(body: bytes) -> Tuple[int, int]:
    """Returns the numbers of viewers and writers in a message V, given without its first byte."""
    viewers, writers = _unpacked(_COUNTS, body)
    return viewers, writers


def screen_of(body: bytes) -> Tuple[int, int, bytes]:
    """Returns the rows, the columns and the text in a redraw, given without its first byte."""
    rows, cols = _unpacked(_SIZE, body[: _SIZE.size])
    if not (1 <= rows <= MAX_ROWS and 1 <= cols <= MAX_COLS):
        raise Nonsense("the screen is too large")
    return rows, cols, body[_SIZE.size :]


def flag_of(body: bytes) -> bool:
    """Returns whether a message W, A or S, given without its first byte, says 1 and not 0."""
    if body not in (b"0", b"1"):
        raise Nonsense("not 0 or 1")
    return body == b"1"


def status_of(body: bytes) -> int:
    """Returns the exit status in a message X, given without its first byte."""
    if not body.isdigit() or len(body) > 3:
        raise Nonsense("not a status")
    return int(body)


def _unpacked(form: struct.Struct, body: bytes) -> Tuple[int, ...]:
    if len(body) != form.size:
        raise Nonsense("a message has a wrong length")
    return form.unpack(body)
