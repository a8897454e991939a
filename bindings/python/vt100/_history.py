"""The scrollback of a screen as a sequence of rows."""

from __future__ import annotations

import ctypes
import typing
from typing import TYPE_CHECKING, Iterator, List, Optional, SupportsIndex, Union, overload

from ._cells import CELL_SIZE, Cell, cells_of
from ._library import library

if TYPE_CHECKING:
    from .screen import Screen

#: The cell that fills up a row that is shorter than the screen's rows.
_BLANK = Cell("")

#: The number of rows that are read at once by a loop.
_PAGE = 1000


class History(typing.Sequence[List[Cell]]):
    """The scrollback rows of a screen, from the oldest to the latest one, as lists of cells. A row
    that is longer than the screen's rows has all of its cells, and a shorter one is filled up with
    blank cells.

    `history[-1]` is the row above the page, and slices are lists of rows. The history of the
    alternate screen is empty. The screen does not change.
    """

    def __init__(self, screen: Screen) -> None:
        self._screen = screen

    def __len__(self) -> int:
        return self._screen.scrollback_len

    @overload
    def __getitem__(self, place: SupportsIndex) -> List[Cell]:
        ...

    @overload
    def __getitem__(self, place: slice) -> List[List[Cell]]:
        ...

    def __getitem__(
        self, place: Union[SupportsIndex, slice]
    ) -> Union[List[Cell], List[List[Cell]]]:
        with self._screen._lock:
            length = len(self)
            if isinstance(place, slice):
                return _cells(self._screen, range(length)[place])
            try:
                row = range(length)[place]
            except IndexError:
                raise IndexError(f"row {place} of a history of {length} rows") from None
            return _cells(self._screen, range(row, row + 1))[0]

    def rows(self, start: int = 0, stop: Optional[int] = None) -> List[str]:
        """Returns the plain text of the rows from `start` up to but excluding `stop`, or of all
        rows from `start` on if `stop` is None. Negative numbers count from the end."""
        with self._screen._lock:
            rows = range(len(self))[start:stop]
            return [self._screen._text(library.vt100_row_contents, row) for row in rows]

    def __iter__(self) -> Iterator[List[Cell]]:
        for start in range(0, len(self), _PAGE):
            yield from self[start : start + _PAGE]

    def __repr__(self) -> str:
        return f"<vt100.History of {len(self)} rows>"


def _cells(screen: Screen, rows: range) -> List[List[Cell]]:
    """Returns the cells of the given rows of scrollback."""
    cols = room = screen.columns
    records = ctypes.create_string_buffer(CELL_SIZE * room)
    length, wrapped = ctypes.c_size_t(), ctypes.c_uint8()
    stored = ctypes.byref(length), ctypes.byref(wrapped)
    found = []
    for row in rows:
        screen._call(library.vt100_get_row_cells, row, records, room, *stored)
        if length.value > room:
            room = length.value
            records = ctypes.create_string_buffer(CELL_SIZE * room)
            screen._call(library.vt100_get_row_cells, row, records, room, *stored)
        cells = cells_of(ctypes.string_at(records, CELL_SIZE * length.value))
        found.append(cells + [_BLANK] * (cols - len(cells)))
    return found
