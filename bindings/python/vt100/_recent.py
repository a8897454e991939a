"""What a program has written since the last input."""

from __future__ import annotations

import bisect
from typing import Iterator, List, Match, Pattern

from ._cells import CELL_LEN, CELL_SIZE
from ._find import columns_of, contents_of
from .parser import Parser
from .screen import Screen

_ERASE_PAGE = b"\x1b[2J"
_NORMAL_SCREEN = b"\x1b[?47l"
_ALTERNATE_SCREEN = b"\x1b[?47h"


class Recent:
    """The characters that a program has written since the last input.

    They are kept on a second screen, which reads the same output as the terminal's, and whose cells
    are erased at each input. A character thus moves as it does on the terminal's screen.
    """

    def __init__(self, rows: int, cols: int) -> None:
        self._parser = Parser(rows, cols)

    def process(self, data: bytes) -> None:
        """Parses a chunk of the output."""
        self._parser.process(data)

    def set_size(self, rows: int, cols: int) -> None:
        """Resizes the terminal."""
        self._parser.set_size(rows, cols)

    def forget(self) -> None:
        """Erases both pages. Modes, cursors and an unfinished sequence are kept."""
        other, back = _ALTERNATE_SCREEN, _NORMAL_SCREEN
        if self._parser.alternate_screen:
            other, back = back, other
        with Parser(1, 1) as eraser:  # the parser itself may be inside a sequence
            self._parser.swap(eraser)
            eraser.process(_ERASE_PAGE + other + _ERASE_PAGE + back)
            self._parser.swap(eraser)

    def has_match(self, pattern: Pattern[str], screen: Screen) -> bool:
        """Returns whether a match of `pattern` in the contents of the terminal's screen has a
        character that was written since the last input. Any match will do while `screen` displays
        scrollback, or if its size was changed without `set_size`."""
        if screen.scrollback or screen.size != self._parser.size:
            return pattern.search(screen.contents()) is not None
        rows = screen.rows()
        wrapped = [screen.row_wrapped(row) for row in range(len(rows))]
        contents, starts = contents_of(rows, wrapped)
        return any(
            match.start() == match.end() or self._is_written(match, screen, rows, starts)
            for match in _matches(pattern, contents)
        )

    def _is_written(
        self, match: Match[str], screen: Screen, rows: List[str], starts: List[int]
    ) -> bool:
        """Returns whether a character of a match was written since the last input."""
        cols = self._parser.columns
        first = bisect.bisect_right(starts, match.start()) - 1
        for row in range(first, len(rows)):
            begin, end = (min(max(at - starts[row], 0), len(rows[row])) for at in match.span())
            if starts[row] >= match.end():
                break
            columns = columns_of(screen._record(row, cols))[begin:end]
            written = self._parser._record(row, cols)[CELL_LEN::CELL_SIZE]
            if any(written[col] for col in columns):
                return True
        return False


def _matches(pattern: Pattern[str], text: str) -> Iterator[Match[str]]:
    """Yields the first match at each index at which one begins; matches may overlap."""
    match = pattern.search(text)
    while match is not None:
        yield match
        match = pattern.search(text, match.start() + 1) if match.start() < len(text) else None
