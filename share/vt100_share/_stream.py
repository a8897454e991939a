"""The keys in Redis by which a server and its relays exchange messages.

The server writes to the stream NAME. The fields of an entry are

    run      which server: 16 hexadecimal digits, chosen at random when it starts
    number   decimal; one more than that of the entry before, unless a relay must begin anew there
    message  a message whose first byte is its kind

and the messages are

    K rows(2) cols(2) text   a keyframe: a new terminal of this size reads the text. A relay that
                             has the messages before displays the same already
    F rows(2) cols(2) text   a new terminal of this size reads the text
    D text                   the terminal reads the text
    T title                  the title of the window; follows each keyframe
    A 0 or 1                 whether the program displays the alternate screen; follows each
                             keyframe
    V viewers(4) writers(4)  how many viewers there are, with those of all relays, and how many of
                             them may type; follows each keyframe
    X digits                 the program has ended with this status; the last message
    P                        the server runs; sent if there is nothing else
    G                        the server ends, but not the program

The stream begins with a keyframe: older entries are removed.

The server writes to the stream NAME:rows the rows that have scrolled off and that it keeps. The
fields of an entry are

    run      which server
    number   decimal: the number of the first row. If it is greater than that of the next row, the
             rows before are no longer kept
    limit    decimal: how many rows are kept
    rows     length(4) cols(2) text of each row, where `cols` is how many columns the screen had:
             see `_messages.py`. There may be none

The relays write to the stream NAME:input what their viewers type. The fields of an entry are

    run      for which server
    relay    which relay: 16 hexadecimal digits, chosen at random when it starts
    number   decimal, and greater than all before of the same relay
    text     what was typed
    proof    HMAC-SHA256 of the fields before, in this order, each followed by a line feed, with the
             relays' token as the key, in hexadecimal

Each relay writes to the hash NAME:viewers once a second. The field is the relay, and the value is
three decimal numbers, separated by spaces: one that is different each time, how many viewers the
relay has, and how many of them may type.

Numbers in messages are big-endian. The key NAME:owner contains the `run` of the server to which the
stream belongs: the one that started last.
"""

from __future__ import annotations

import hashlib
import hmac
import re
import struct
from typing import Dict, List, NamedTuple, Optional, Pattern, Tuple

from . import _messages as messages
from ._messages import MAX_COLS, Nonsense, Row

KEYFRAME, REDRAW, UPDATE, TITLE, COUNTS = b"K", b"F", b"D", b"T", b"V"
END, ALIVE, GONE, ALTERNATE = b"X", b"P", b"G", b"A"
_KINDS = b"KFDTVXPGA"

#: How often a relay says how many viewers it has, and after how long without that it has none, in
#: seconds.
COUNT_GAP, UNCOUNTED_AFTER = 1.0, 4.0

#: About how many bytes of rows are in an entry.
ROWS_SIZE = 1 << 16

#: How often a server that has nothing else to publish says that it runs, in seconds.
ALIVE_GAP = 1.0

#: After how many seconds without any message a relay calls its screen stale.
STALE_AFTER = 3.0

#: The longest text that a relay may send at a time, and about how many such texts are kept.
MAX_INPUT, INPUT_KEPT = 4096, 1000

_RUN = re.compile(rb"[0-9a-f]{16}\Z")
_NUMBER = re.compile(rb"[0-9]{1,18}\Z")
_REPORT = re.compile(rb"[0-9]{1,18} ([0-9]{1,6}) ([0-9]{1,6})\Z")
#: What the library writes besides text and the controls that move the cursor: see the clauses
#: `controls` of `vt_screen`. These sequences neither take long, as REP does, nor have effects
#: outside the screen.
_SEQUENCES = re.compile(
    rb"\x1b(?:\[(?:[0-9;]{0,64}[@CGHLMPXm]|\?(?:1|9|25|100[02356]|2004)[hl]|[JK]|[0-6] q)|[78=>])"
)
_OTHERS = re.compile(rb"[\x00-\x07\x0b\x0c\x0e-\x1f\x7f]")

#: How many bytes the library writes at most for a cell, and for a screen besides its cells.
_CELL_LEN, _MORE_LEN = 96, 4096

#: What ends a row that has scrolled off: a line feed, or a wrap.
_ROW_ENDS = b"\r\n", b" \r\x1b[K"

_ROW = struct.Struct(">IH")


class Entry(NamedTuple):
    """An entry of the stream NAME."""

    run: bytes
    number: int
    kind: bytes
    body: bytes


class RowsEntry(NamedTuple):
    """An entry of the stream NAME:rows."""

    run: bytes
    number: int
    limit: int
    rows: List[Row]


class Typed(NamedTuple):
    """An entry of the stream NAME:input, whose proof holds."""

    relay: bytes
    number: int
    text: bytes


class Names(NamedTuple):
    """The names of the keys in Redis."""

    screen: str
    rows: str
    input: str
    viewers: str
    owner: str


def names_of(name: str) -> Names:
    """Returns the names of the keys for the stream `name`."""
    return Names(name, *(f"{name}:{part}" for part in Names._fields[1:]))


def _field(
    fields: Dict[bytes, bytes], name: bytes, form: Optional[Pattern[bytes]] = None
) -> bytes:
    value = fields.get(name)
    if not isinstance(value, bytes) or (form is not None and form.match(value) is None):
        raise Nonsense(f"malformed field: {name.decode()}")
    return value


def _number(fields: Dict[bytes, bytes], name: bytes = b"number") -> int:
    return int(_field(fields, name, _NUMBER))


def entry_of(fields: Dict[bytes, bytes]) -> Entry:
    """Returns an entry of the stream NAME. Raises `Nonsense`."""
    message = _field(fields, b"message")
    kind = message[:1]
    if not kind or kind not in _KINDS:
        raise Nonsense("not a message of a server")
    return Entry(_field(fields, b"run", _RUN), _number(fields), kind, message[1:])


def text_of(text: bytes, cell_count: int) -> bytes:
    """Returns a text that a terminal with so many cells reads. Raises `Nonsense` if no server
    writes it."""
    is_long = len(text) > _CELL_LEN * cell_count + _MORE_LEN
    if is_long or _OTHERS.search(_SEQUENCES.sub(b"", text)):
        raise Nonsense("not a message of a server")
    return text


def screen_of(body: bytes) -> Tuple[int, int, bytes]:
    """Returns the size and the text of a redraw or keyframe. Raises `Nonsense`."""
    rows, cols, text = messages.screen_of(body)
    return rows, cols, text_of(text, rows * cols)


def rows_fields(run: bytes, number: int, limit: int, rows: List[Row]) -> Dict[bytes, bytes]:
    """Returns the fields of an entry of the stream NAME:rows."""
    text = b"".join(_ROW.pack(len(row.text), row.cols) + row.text for row in rows)
    return {b"run": run, b"number": b"%d" % number, b"limit": b"%d" % limit, b"rows": text}


def rows_of(fields: Dict[bytes, bytes]) -> RowsEntry:
    """Returns an entry of the stream NAME:rows. Raises `Nonsense`."""
    text, at, rows = _field(fields, b"rows"), 0, []
    while at < len(text):
        if len(text) - at < _ROW.size:
            raise Nonsense("not rows")
        length, cols = _ROW.unpack_from(text, at)
        at += _ROW.size
        if not 1 <= cols <= MAX_COLS:
            raise Nonsense("not rows")
        rows.append(Row(cols, _row_of(text[at : at + length])))
        at += length
    if at > len(text):
        raise Nonsense("not rows")
    limit = _number(fields, b"limit")
    return RowsEntry(_field(fields, b"run", _RUN), _number(fields), limit, rows)


def _row_of(text: bytes) -> bytes:
    """Returns a row that has scrolled off. Raises `Nonsense`."""
    if not text.endswith(_ROW_ENDS) or text.count(b"\n") != text.endswith(b"\n"):
        raise Nonsense("not rows")
    return text_of(text, MAX_COLS)


def report(beat: int, viewers: int, writers: int) -> bytes:
    """Returns a value of the hash NAME:viewers."""
    return b"%d %d %d" % (beat, viewers, writers)


def report_of(value: bytes) -> Tuple[int, int]:
    """Returns how many viewers and writers there are by a value of the hash NAME:viewers. Raises
    `Nonsense`."""
    found = _REPORT.match(value)
    if found is None:
        raise Nonsense("not a report")
    return int(found[1]), int(found[2])


def _proof(token: bytes, *fields: bytes) -> bytes:
    text = b"".join(field + b"\n" for field in fields)
    return hmac.new(token, text, hashlib.sha256).hexdigest().encode()


def typed_fields(
    token: bytes, run: bytes, relay: bytes, number: int, text: bytes
) -> Dict[bytes, bytes]:
    """Returns the fields of an entry of the stream NAME:input."""
    count = b"%d" % number
    proof = _proof(token, run, relay, count, text)
    return {b"run": run, b"relay": relay, b"number": count, b"text": text, b"proof": proof}


def typed_of(token: bytes, run: bytes, fields: Dict[bytes, bytes]) -> Optional[Typed]:
    """Returns what was typed for the server `run`, or None if it was for another one. Raises
    `Nonsense` for an entry without a valid proof."""
    meant, relay = (_field(fields, name, _RUN) for name in (b"run", b"relay"))
    number = _number(fields)
    text, given = _field(fields, b"text"), _field(fields, b"proof")
    if len(text) > MAX_INPUT:
        raise Nonsense("the text is too long")
    if meant != run:
        return None
    proof = _proof(token, meant, relay, _field(fields, b"number"), text)
    if not hmac.compare_digest(proof, given):
        raise Nonsense("the proof is wrong")
    return Typed(relay, number, text)
