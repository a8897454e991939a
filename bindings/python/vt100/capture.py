"""Captures: the text of rows with colors and attributes.

A capture is the concatenated text of rows, with SGR sequences and no other escape sequences: first
the rows that scroll off a screen, in order, and finally the rows that are still on it.

    class Log(vt100.Callbacks):
        def __init__(self):
            self.capture, self.text = vt100.Capture(), ""

        def on_scroll_row(self, row, alternate_screen):
            self.text += row.formatted_basic(self.capture)

    log = Log()
    parser = vt100.Parser(24, 80, callbacks=log)
    parser.process(b"\\x1b[32mmany\\r\\nrows\\r\\n" * 20)
    log.text += log.capture.add_screen(parser)
    assert vt100.capture.to_plain(log.text).startswith("many\\nrows\\n")
"""

from __future__ import annotations

import ctypes
import re
from typing import Iterator, List, Optional, SupportsIndex, Tuple

from ._library import MAX_SIZE, MAX_U16, Error, check, in_range, library
from ._object import Object
from .screen import Screen

_SGR = re.compile("\x1b\\[[0-9;]*m")

#: The number of bytes of a capture that are examined first for the end of a row.
_FIRST_WINDOW = 256


class Capture(Object):
    """The state of a capture between two rows: the attributes in effect, and whether a newline is
    due. Each method returns only the text that it adds; the caller concatenates these texts."""

    def __init__(self) -> None:
        check(library.vt100_capture_new(self._at))

    def add_screen(self, screen: Screen) -> str:
        """Continues the capture with all rows of a screen, including scrollback."""
        if not isinstance(screen, Screen):
            raise TypeError(f"a Screen is required, not {type(screen).__name__!r}")
        with screen._lock, self._lock:
            return self._after(library.vt100_capture_screen(screen._at, self._at, self._length))

    def add_row(self, row: RowContents) -> str:
        """Continues the capture with a row that scrolled off a screen."""
        return row.formatted_basic(self)

    def _add(self, parser: Screen, index: int) -> str:
        with parser._lock, self._lock:
            status = library.vt100_capture_row(parser._at, index, self._at, self._length)
            return self._after(status, "the callback to which the row was passed has ended")

    @property
    def _length(self) -> object:
        self._len = ctypes.c_size_t()
        return ctypes.byref(self._len)

    def _after(self, status: int, wrong: str = "") -> str:
        """Returns the text that a call added. Raises the exception for its status."""
        check(status, wrong)
        room = ctypes.create_string_buffer(self._len.value)
        library.vt100_copy(self._at, room, self._len)
        return room.raw.decode()

    def __copy__(self) -> Capture:
        copy = Capture.__new__(Capture)
        self._call(library.vt100_save, copy._at)
        return copy

    def __repr__(self) -> str:
        return f"<vt100.Capture{' closed' if self._is_closed else ''}>"


class RowContents:
    """A row that scrolled off a screen, as passed to `Callbacks.on_scroll_row`.

    `text` is its plain text, and `wrapped` is true if the text continues on the next row.
    """

    def __init__(self, parser: Screen, index: int, text: str, wrapped: bool) -> None:
        self.text = text
        self.wrapped = wrapped
        self._parser: Optional[Screen] = parser
        self._index = index

    def formatted_basic(self, capture: Optional[Capture] = None) -> str:
        """Returns the row with SGR sequences, as the continuation of a capture. Without `capture`,
        the row is the first one of a capture. Raises `Error` after the callback has ended."""
        if self._parser is None:
            raise Error("the callback to which the row was passed has ended")
        return (capture or Capture())._add(self._parser, self._index)

    def _end(self) -> None:
        self._parser = None

    def __repr__(self) -> str:
        return f"<vt100.RowContents {self.text!r}{', wrapped' if self.wrapped else ''}>"


def to_plain(capture: str) -> str:
    """Returns the text of a capture without its escape sequences."""
    return _SGR.sub("", capture)


def rows(capture: str, cols: SupportsIndex) -> List[str]:
    """Returns the rows of a capture on a screen of `cols` columns, with their escape sequences but
    without the newlines between them."""
    return list(_rows(capture.encode(), in_range("cols", cols, 1, MAX_U16)))


def _rows(data: bytes, cols: int) -> Iterator[str]:
    at: Optional[int] = 0
    while at is not None:
        end, after = _row_end(data, at, cols)
        yield data[at:end].decode()
        at = after


def _row_end(data: bytes, at: int, cols: int) -> Tuple[int, Optional[int]]:
    """Returns the end of the row that begins at `at`, and where the next one begins. Examines more
    and more bytes, since the library examines all bytes that it gets."""
    room = _FIRST_WINDOW + 4 * cols
    while True:
        stop = min(len(data), at + room)
        while stop < len(data) and data[stop] & 0xC0 == 0x80:  # within a character
            stop += 1
        window = data[at:stop]
        end, after = ctypes.c_size_t(), ctypes.c_size_t()
        ends = ctypes.byref(end), ctypes.byref(after)
        check(library.vt100_next_row(window, len(window), cols, 0, *ends), "not a capture")
        if after.value != MAX_SIZE:
            return at + end.value, at + after.value
        if stop == len(data):
            return at + end.value, None
        room *= 2
