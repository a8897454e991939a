"""The rows that have scrolled off the screen of the program, for viewers that scroll back."""

from __future__ import annotations

import asyncio
import itertools
from typing import Callable, Dict, Iterator, List, NamedTuple, Optional, Tuple

from vt100 import Parser

from . import _messages as messages
from ._messages import Row
from ._viewers import Viewer

#: The largest number of rows that can be kept, which is also how many a page keeps.
MAX_ROWS = 10000

#: A message has no more rows after this number of bytes.
CHUNK = 4096

#: The shortest time between two messages with rows to a viewer, in seconds.
GAP = 1 / 30

#: How many viewers get rows before the event loop has its turn.
SLICE = 500


class Part(NamedTuple):
    """A message, and the number of the row after those in it."""

    message: bytes
    end: int


class Rows:
    """The latest rows that have scrolled off a screen, at most `limit` of them.

    Rows are numbered. A viewer that has the rows before a number gets the next ones by
    `part(number)`. If rows in between are no longer kept, the message begins with a later row than
    the viewer expects: it then discards its own rows, as if the scrollback had been erased.
    """

    def __init__(self, limit: int) -> None:
        self.limit = limit
        self._rows: List[Row] = []
        #: The number of the first row that is kept.
        self.first = 0
        self._parts: Dict[Optional[int], Part] = {}

    @property
    def end(self) -> int:
        """The number of the next row that scrolls off."""
        return self.first + len(self._rows)

    def take(self, parser: Parser) -> None:
        """Takes rows from the parser of the screen."""

    def add(self, rows: List[Row]) -> None:
        """Adds rows that have scrolled off."""
        self._rows += rows
        excess = max(0, len(self._rows) - self.limit)
        del self._rows[:excess]
        self.first += excess
        self._parts.clear()

    def discard(self) -> None:
        """Discards all rows."""
        # The number that is skipped tells viewers that rows are missing.
        self.first = self.end + 1
        self._rows.clear()
        self._parts.clear()

    def part(self, number: Optional[int]) -> Optional[Part]:
        """Returns the next rows for a viewer that has the rows before `number`, or none if `number`
        is None. Returns None if there is nothing to send."""
        if number == self.end or (number is None and not self._rows):
            return None
        if number not in self._parts:
            begin, rows = self.after(number, CHUNK)
            _, same = next(itertools.groupby(rows, lambda row: row.cols), (0, iter(())))
            rows = list(same)
            self._parts[number] = Part(messages.history(begin, rows), begin + len(rows))
        return self._parts[number]

    def newest(self, number: Optional[int]) -> Part:
        """Returns the newest of the rows from `number` on, or of all rows, that fit into a
        message."""
        first = self.first if number is None else max(number, self.first)
        begin, length = self.end, 0
        while begin > first and length < CHUNK and self._has_width_of_last(begin - 1):
            begin -= 1
            length += len(self._rows[begin - self.first].text)
        return Part(messages.history(begin, self._rows[begin - self.first :]), self.end)

    def _has_width_of_last(self, number: int) -> bool:
        return self._rows[number - self.first].cols == self._rows[-1].cols

    def after(self, number: Optional[int], size: int) -> Tuple[int, List[Row]]:
        """Returns the rows from `number` on, or from the first one if `number` is None, that begin
        within `size` bytes, and the number of the first of them."""
        begin = end = self.first if number is None else max(number, self.first)
        length = 0
        while end < self.end and length < size:
            length += len(self._rows[end - self.first].text)
            end += 1
        return begin, self._rows[begin - self.first : end - self.first]


class History(Rows):
    """The latest rows that have scrolled off the screen of a parser.

    The parser must have been made with `scrollback=limit`. `take` moves the rows from its
    scrollback to this object. While the alternate screen is displayed, they stay where they are.
    """

    def __init__(self, limit: int) -> None:
        super().__init__(limit)
        self._parser: Optional[Parser] = None
        self._erasures = 0

    def take(self, parser: Parser) -> None:
        """Takes the rows that are in the scrollback of the parser. Discards those that were taken
        before if output that it has processed since then erased the scrollback."""
        if not self.limit:
            return
        if parser is not self._parser:
            self._parser, self._erasures = parser, 0
        if parser.scrollback_erasures != self._erasures:
            self._erasures = parser.scrollback_erasures
            self.discard()
        count = parser.scrollback_len
        # If its scrollback is full, the parser may have dropped rows that were never taken.
        if count == self.limit:
            self.discard()
        if count == 0:
            return
        height = parser.lines
        rows: List[Row] = []
        try:
            for left in range(count, 0, -height):
                parser.set_scrollback(left)
                rows += _read(parser, min(left, height))
        finally:
            parser.set_scrollback(0)
        parser.clear_scrollback()
        self.add(rows)


def _read(parser: Parser, count: int) -> List[Row]:
    """Returns the first displayed rows, each with what moves a terminal to the next row."""
    rows, cols = [], parser.columns
    for row, data in enumerate(parser.rows_formatted_bytes()[:count]):
        if b"\x1b" in data:
            data += b"\x1b[m"
        # A terminal wraps before the space.
        end = b" \r\x1b[K" if _is_wrapped(parser, row, cols) else b"\r\n"
        rows.append(Row(cols, data + end))
    return rows


def _is_wrapped(parser: Parser, row: int, cols: int) -> bool:
    """Returns whether a row is wrapped, and full: one that is older than the width of the screen
    need not be."""
    if not parser.row_wrapped(row):
        return False
    last = parser[row, cols - 1]
    return last.text != "" or last.wide_continuation


class HistorySender:
    """Sends the rows of a history to viewers, at most one message every `GAP` seconds to each, so
    that rows do not delay updates. A viewer is left out while it has no room for more, and unless
    `is_current(viewer)` returns true, so that updates come first.

    `finished` is called with each viewer that has got all rows.
    """

    def __init__(
        self,
        history: Rows,
        is_current: Callable[[Viewer], bool],
        finished: Callable[[Viewer], None],
    ) -> None:
        self._history, self._is_current, self._finished = history, is_current, finished
        self._loop = asyncio.get_running_loop()
        self._end = history.end
        self._viewers: Dict[Viewer, None] = {}
        self._waiting: Dict[Viewer, None] = {}
        self._turn: Optional[Iterator[Viewer]] = None
        self._timer: Optional[asyncio.TimerHandle] = None

    def add(self, viewer: Viewer) -> None:
        """Adds a viewer, which gets the rows that are kept."""
        if self._history.limit:
            self._viewers[viewer] = self._waiting[viewer] = None
            self._schedule(0.0)

    def remove(self, viewer: Viewer) -> None:
        self._viewers.pop(viewer, None)
        self._waiting.pop(viewer, None)

    def has_all(self, viewer: Viewer) -> bool:
        """Whether a viewer has got all rows that there are."""
        return viewer not in self._waiting

    def send_newest(self, viewer: Viewer) -> None:
        """Sends the rows above the screen to a viewer that has not got all rows, and no others."""
        if viewer in self._waiting:
            del self._waiting[viewer]
            if self._history.part(viewer.row) is not None:
                part = self._history.newest(viewer.row)
                viewer.send_rows(part.message, part.end)

    def wake(self) -> None:
        """Begins to send rows if there are new ones."""
        if self._history.end != self._end:
            self._end = self._history.end
            self._waiting = dict(self._viewers)
            self._schedule(0.0)

    def _schedule(self, delay: float) -> None:
        if self._turn is None and self._timer is None and self._waiting:
            self._timer = self._loop.call_later(delay, self._begin)

    def _begin(self) -> None:
        self._timer = None
        self._turn = iter(list(self._waiting))
        self._resume()

    def _resume(self) -> None:
        """Serves the next viewers."""
        assert self._turn is not None
        for count, viewer in enumerate(self._turn, 1):
            if viewer in self._waiting and viewer.has_room and self._is_current(viewer):
                self._serve(viewer)
            if count == SLICE:
                self._loop.call_soon(self._resume)
                return
        self._turn = None
        self._schedule(GAP)

    def _serve(self, viewer: Viewer) -> None:
        part = self._history.part(viewer.row)
        if part is not None:
            viewer.send_rows(part.message, part.end)
        if part is None or part.end == self._history.end:
            del self._waiting[viewer]
            self._finished(viewer)
