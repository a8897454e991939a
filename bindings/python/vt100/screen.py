"""Screens."""

from __future__ import annotations

import contextlib
import ctypes
import operator
from typing import (
    Any,
    Iterator,
    List,
    Optional,
    Pattern,
    SupportsIndex,
    Tuple,
    Union,
    overload,
)

from . import _find
from ._cells import CELL_SIZE, Cell, Position, cell_of, cells_of
from ._dirty import Dirty
from ._history import History
from ._library import (
    BAD_ARGUMENT,
    MAX_SIZE,
    MAX_U16,
    State,
    check,
    in_range,
    library,
    size_in_range,
)
from ._options import Repeat, diff_options, redraw_options
from ._pictures import Theme, html_of, svg_of
from ._state import HasState

_Index = SupportsIndex


class Screen(HasState):
    """A screen, which belongs to a parser or is a copy made by `save`.

    `screen[row]` is a list of cells and `screen[row, col]` is a cell. Negative indices count from
    the end, and `IndexError` is raised for an invalid position.

    Two screens are equal if they display the same content and have the same modes: their size,
    cells, wrapped rows, cursor and attributes of the next character are compared, but not the rows
    that are not displayed.
    """

    _seen: Optional[List[bytes]] = None

    def __init__(self) -> None:
        raise TypeError("Screen() makes no screen: make a Parser, or save() one")

    def save(self) -> Screen:
        """Returns a copy of the screen, which later input does not change."""
        copy = Screen.__new__(Screen)
        self._call(library.vt100_save, copy._at)
        return copy

    def shown_copy(self) -> Screen:
        """Returns a screen of the same size that displays the same content, without scrollback or
        the inactive page. While scrollback is displayed, the copy is complete. The copy can be the
        `prev` of a later `contents_diff` and takes less memory than one made by `save`."""
        copy = Screen.__new__(Screen)
        self._call(library.vt100_shown_copy, copy._at)
        return copy

    def __copy__(self) -> Screen:
        return self.save()

    def swap(self, other: Screen) -> None:
        """Swaps two screens, for example to let a parser display a saved screen again. A parser
        keeps its callbacks and its unfinished sequence."""
        with self._and(other):
            self._call(library.vt100_swap, other._at)

    def set_size(self, rows: _Index, cols: _Index) -> None:
        """Resizes the screen without invoking callbacks."""
        self._call(library.vt100_screen_set_size, *size_in_range(rows, cols))

    def set_scrollback(self, rows: _Index) -> None:
        """Scrolls the display back by `rows` rows, or by all scrollback rows if there are fewer; 0
        displays the page itself. Does nothing on the alternate screen."""
        self._call(library.vt100_set_scrollback, in_range("rows", rows, 0, MAX_SIZE))

    def clear_scrollback(self) -> None:
        """Discards the scrollback without invoking callbacks. Does nothing on the alternate
        screen."""
        self._call(library.vt100_clear_scrollback)

    # Cells

    def cell(self, row: _Index, col: _Index) -> Optional[Cell]:
        """Returns the displayed cell at a row and column, or None if there is no such cell."""
        row, col = operator.index(row), operator.index(col)
        if not (0 <= row <= MAX_U16 and 0 <= col <= MAX_U16):
            return None
        record = ctypes.create_string_buffer(CELL_SIZE)
        with self._lock:
            status = library.vt100_get_cell(self._at, row, col, record)
        if status == BAD_ARGUMENT:
            return None
        check(status)
        return cell_of(record.raw)

    def cells(self, row: _Index) -> List[Cell]:
        """Returns the cells of a displayed row, one for each column of the screen. This is faster
        than calling `cell` for each column. Raises `ValueError` if there is no such row."""
        with self._lock:
            state = self._state
            return cells_of(self._record(in_range("row", row, 0, state.rows - 1), state.cols))

    @property
    def buffer(self) -> List[List[Cell]]:
        """The cells of all displayed rows, as `buffer[row][col]`. The list is not affected by later
        changes of the screen."""
        return [cells_of(records) for records in self._records()]

    @property
    def history(self) -> History:
        """The rows of scrollback, from the oldest to the latest one, as a sequence of lists of
        cells: `history[-1]` is the row above the page. Its method `rows` returns their text."""
        return History(self)

    @overload
    def __getitem__(self, place: _Index) -> List[Cell]:
        ...

    @overload
    def __getitem__(self, place: Tuple[_Index, _Index]) -> Cell:
        ...

    def __getitem__(
        self, place: Union[_Index, Tuple[_Index, _Index]]
    ) -> Union[List[Cell], Cell]:
        if isinstance(place, tuple):
            cells, col = self[place[0]], operator.index(place[1])
            if not -len(cells) <= col < len(cells):
                raise IndexError(f"column {col} of a screen of {len(cells)} columns")
            return cells[col]
        row = operator.index(place)
        with self._lock:
            rows = self._state.rows
            if not -rows <= row < rows:
                raise IndexError(f"row {row} of a screen of {rows} rows")
            return self.cells(row % rows)

    def __iter__(self) -> Iterator[List[Cell]]:
        return iter(self.buffer)

    def row_wrapped(self, row: _Index) -> bool:
        """Returns whether a displayed row is wrapped (its text continues on the next row). Raises
        `ValueError` if there is no such row."""
        with self._lock:
            return self._wrapped(in_range("row", row, 0, self._state.rows - 1))

    def _wrapped(self, row: int) -> bool:
        wrapped = ctypes.c_uint8()
        self._call(library.vt100_row_wrapped, row, ctypes.byref(wrapped))
        return wrapped.value == 1

    def is_steady(self) -> bool:
        """Returns whether the screen is steady: every displayed glyph reproduces itself when it is
        printed on a blank row. A terminal that reads the redraw of a steady screen, or a diff to
        it, displays exactly that screen. Only U+FE0F can make a screen unsteady."""
        return self._flag(library.vt100_is_steady)

    def _record(self, row: int, cols: int) -> bytes:
        """Returns the cells of a displayed row as an array of `vt100_cell`."""
        records = ctypes.create_string_buffer(CELL_SIZE * cols)
        self._call(library.vt100_get_cells, row, records, cols)
        return records.raw

    def _records(self) -> List[bytes]:
        """Returns the cells of each displayed row as an array of `vt100_cell`."""
        with self._lock:
            state = self._state
            room = CELL_SIZE * state.cols
            records = ctypes.create_string_buffer(room * state.rows)
            self._call(library.vt100_get_all_cells, records, state.rows * state.cols)
        whole = records.raw
        return [whole[at : at + room] for at in range(0, len(whole), room)]

    def _rows_whole(self) -> List[bytes]:
        """Returns, for each displayed row, its cells and whether it is wrapped."""
        with self._lock:
            records = self._records()
            return [cells + bytes([self._wrapped(row)]) for row, cells in enumerate(records)]

    @property
    def dirty(self) -> Dirty:
        """The set of the displayed rows that have changed since `dirty.clear()`. A call `dirty()`
        returns the rows as a set and clears them."""
        return Dirty(self)

    # Text

    @property
    def display(self) -> List[str]:
        """The text of each displayed row in all columns of the row, with a space for each cell
        to which nothing was written."""
        with self._lock:
            cols = self._state.cols
            rows = enumerate(self._row_texts(library.vt100_rows, 0, cols))
            return [
                text.ljust(cols)
                if text.isascii()
                else text + " " * (cols - _find.written(self._record(row, cols)))
                for row, text in rows
            ]

    def contents(self) -> str:
        """Returns the plain text of the displayed rows. Each row is followed by a newline, unless
        it is wrapped and the next row has text. Newlines at the end are omitted."""
        return self._text(library.vt100_contents)

    def contents_between(
        self, start_row: _Index, start_col: _Index, end_row: _Index, end_col: _Index
    ) -> str:
        """Returns the plain text from one position up to but excluding another, which is empty if
        the end is before the start. Each row except the last is followed by a newline, unless it is
        wrapped. Raises `ValueError` if the range has more than one row and `start_col` is greater
        than the number of columns."""
        named = (
            ("start_row", start_row),
            ("start_col", start_col),
            ("end_row", end_row),
            ("end_col", end_col),
        )
        places = [in_range(name, value, 0, MAX_U16) for name, value in named]
        wrong = f"start_col must be at most the number of columns, not {places[1]}"
        return self._text(library.vt100_contents_between, *places, wrong=wrong)

    def find(self, text: Union[str, Pattern[str]]) -> List[Position]:
        """Returns the positions in `contents` at which `text`, or a match of a compiled pattern,
        begins. Matches do not overlap. Text that continues from a wrapped row onto the next row
        is found, too."""
        pattern = _find.pattern_of(text)
        with self._lock:
            cols = self._state.cols
            rows = self._row_texts(library.vt100_rows, 0, cols)
            wrapped = [self._wrapped(row) for row in range(len(rows))]
            return _find.places_of(pattern, rows, wrapped, lambda row: self._record(row, cols))

    def rows(self, start: _Index = 0, width: Optional[_Index] = None) -> List[str]:
        """Returns the plain text of each displayed row in `width` columns from column `start` on.
        By default, `width` is the number of columns of the screen."""
        return self._row_texts(library.vt100_rows, start, width)

    def rows_formatted(self, start: _Index = 0, width: Optional[_Index] = None) -> List[str]:
        """Returns the escape sequences that draw each row, in `width` columns from column `start`
        on, on a blank row of a plain terminal. Before the terminal reads the output of a row, it
        must have default attributes and its cursor in column `start` of that row. Neither end of
        the range may split a wide character. Raises `ValueError` if `start` is not a column of the
        screen."""
        return self._row_texts(library.vt100_rows_formatted, start, width)

    def rows_formatted_bytes(
        self, start: _Index = 0, width: Optional[_Index] = None
    ) -> List[bytes]:
        """Returns `rows_formatted` encoded as UTF-8, without making strings first."""
        return self._row_bytes(library.vt100_rows_formatted, start, width)

    def rows_diff(
        self, prev: Screen, start: _Index = 0, width: Optional[_Index] = None
    ) -> List[str]:
        """Returns the escape sequences that turn each row of `prev` into the corresponding row of
        this screen, in `width` columns from column `start` on. The attributes, the cursor and the
        range must be as for `rows_formatted`. Raises `Error` if the sizes differ."""
        with self._and(prev) as other:
            return self._row_texts(library.vt100_rows_diff, start, width, other._at)

    def _row_texts(
        self, function: Any, start: _Index, width: Optional[_Index], *before: Any
    ) -> List[str]:
        return [row.decode() for row in self._row_bytes(function, start, width, *before)]

    def _row_bytes(
        self, function: Any, start: _Index, width: Optional[_Index], *before: Any
    ) -> List[bytes]:
        start = in_range("start", start, 0, MAX_U16)
        with self._lock:
            state = self._state
            cols = state.cols if width is None else in_range("width", width, 0, MAX_U16)
            ends = (ctypes.c_size_t * state.rows)()
            wrong = f"start must be a column of the screen, from 0 to {state.cols - 1}, not {start}"
            text = self._bytes(function, *before, start, cols, ends, state.rows, wrong=wrong)
        starts = [0, *ends[:-1]]
        return [text[begin:end] for begin, end in zip(starts, ends)]

    def to_html(self, theme: Theme = Theme()) -> str:
        """Returns a picture of the displayed rows in HTML: a `pre` element with its own style."""
        return html_of(self.buffer, theme)

    def to_svg(self, theme: Theme = Theme()) -> str:
        """Returns a picture of the displayed rows in SVG, whose text a monospaced font draws."""
        return svg_of(self.buffer, theme)

    # Redraws and diffs

    def contents_formatted(self, *, portable: bool = False) -> str:
        """Returns a redraw: the escape sequences that make any plain terminal of this size display
        this screen.

        A terminal is plain if its scroll region is the whole page, origin mode is off, no
        scrollback is displayed and no sequence is unfinished; every new terminal is plain. If this
        screen is steady (see `is_steady`), the terminal then displays exactly this screen.

        With `portable`, the output avoids sequences on whose effects real terminals disagree: it
        changes between bold and dim only after a reset, moves the cursor from the last column only
        to an absolute position, and erases a wide glyph only as a whole.
        """
        return self._text(library.vt100_contents_formatted_with, redraw_options(portable))

    def contents_formatted_reset(self) -> str:
        """Returns a redraw for terminals of this size that need not be plain: they may have any
        scroll region and origin mode, but no scrollback may be displayed and no sequence may be
        unfinished."""
        return self._text(library.vt100_contents_formatted_reset)

    def contents_formatted_basic(self) -> str:
        """Returns the text of the displayed rows with SGR sequences for colors and attributes, and
        without other escape sequences. Each row ends with a newline, unless it is wrapped or is the
        last one."""
        return self._text(library.vt100_contents_formatted_basic)

    def state_formatted(self, *, portable: bool = False) -> str:
        """Returns the escape sequences that redraw the screen and set the input modes:
        `contents_formatted` followed by `input_mode_formatted`. With `portable`, the redraw is
        portable (see `contents_formatted`)."""
        return self._text(library.vt100_state_formatted_with, redraw_options(portable))

    def cursor_state_formatted(self) -> str:
        """Returns the part of a redraw that moves the cursor and shows or hides it, for a plain
        terminal of this size that displays the rows of this screen and has default attributes. If a
        wrap is pending, this part may draw the end of a row again."""
        return self._text(library.vt100_cursor_state_formatted)

    def attributes_formatted(self) -> str:
        """Returns the part of a redraw that sets the attributes of the next character."""
        return self._text(library.vt100_attributes_formatted)

    def input_mode_formatted(self) -> str:
        """Returns the escape sequences that set the input modes: keypad, cursor keys, bracketed
        paste, mouse and cursor style. The terminal must have the default mouse mode, mouse encoding
        and cursor style, because these are set only if they are not the default."""
        return self._text(library.vt100_input_mode_formatted)

    def contents_diff(self, prev: Screen) -> str:
        """Returns a diff: the escape sequences that turn the display of `prev` on a plain terminal
        into the display of this screen. Raises `Error` if the sizes differ."""
        return self._diff(library.vt100_contents_diff, prev)

    def contents_diff_scrolling(self, prev: Screen) -> str:
        """Returns a diff that may begin by moving rows or columns, and is never longer than that of
        `contents_diff`, or than the redraw."""
        return self._diff(library.vt100_contents_diff_scrolling, prev)

    def contents_diff_with(
        self,
        prev: Screen,
        *,
        scroll: bool = False,
        repeat: Repeat = Repeat.NEVER,
        portable: bool = False,
    ) -> str:
        """Returns a diff with options, which is never longer than that of `contents_diff` or, with
        `portable`, than its portable form (see `contents_formatted`). With `scroll`, it may begin
        by moving rows or columns, and moves the cursor with shorter sequences; a portable diff moves
        no columns. Runs within a row of the one-column characters that `repeat` allows may be
        written with REP (ECMA-48, 8.3.103); some terminals ignore REP."""
        options = diff_options(scroll, repeat, portable)
        return self._diff(library.vt100_contents_diff_with, prev, options)

    def state_diff(self, prev: Screen) -> str:
        """Returns the escape sequences that turn the display and the input modes of `prev` into
        those of this screen: `contents_diff` followed by `input_mode_diff`."""
        return self._diff(library.vt100_state_diff, prev)

    def state_diff_with(
        self,
        prev: Screen,
        *,
        scroll: bool = False,
        repeat: Repeat = Repeat.NEVER,
        portable: bool = False,
    ) -> str:
        """Returns the escape sequences that turn the display and the input modes of `prev` into
        those of this screen, with options: `contents_diff_with` followed by `input_mode_diff`."""
        options = diff_options(scroll, repeat, portable)
        return self._diff(library.vt100_state_diff_with, prev, options)

    def input_mode_diff(self, prev: Screen) -> str:
        """Returns the escape sequences that turn the input modes of `prev` into those of this
        screen. The screens may have different sizes."""
        return self._diff(library.vt100_input_mode_diff, prev)

    def contents_formatted_bytes(self, *, portable: bool = False) -> bytes:
        """Returns `contents_formatted` encoded as UTF-8, without making a string first."""
        return self._bytes(library.vt100_contents_formatted_with, redraw_options(portable))

    def state_formatted_bytes(self, *, portable: bool = False) -> bytes:
        """Returns `state_formatted` encoded as UTF-8, without making a string first."""
        return self._bytes(library.vt100_state_formatted_with, redraw_options(portable))

    def input_mode_formatted_bytes(self) -> bytes:
        """Returns `input_mode_formatted` encoded as UTF-8, without making a string first."""
        return self._bytes(library.vt100_input_mode_formatted)

    def contents_diff_bytes(
        self,
        prev: Screen,
        *,
        scroll: bool = False,
        repeat: Repeat = Repeat.NEVER,
        portable: bool = False,
    ) -> bytes:
        """Returns `contents_diff_with` encoded as UTF-8, without making a string first."""
        options = diff_options(scroll, repeat, portable)
        return self._diff_bytes(library.vt100_contents_diff_with, prev, options)

    def state_diff_bytes(
        self,
        prev: Screen,
        *,
        scroll: bool = False,
        repeat: Repeat = Repeat.NEVER,
        portable: bool = False,
    ) -> bytes:
        """Returns `state_diff_with` encoded as UTF-8, without making a string first."""
        options = diff_options(scroll, repeat, portable)
        return self._diff_bytes(library.vt100_state_diff_with, prev, options)

    def input_mode_diff_bytes(self, prev: Screen) -> bytes:
        """Returns `input_mode_diff` encoded as UTF-8, without making a string first."""
        return self._diff_bytes(library.vt100_input_mode_diff, prev)

    def _diff(self, function: Any, prev: Screen, *options: int) -> str:
        return self._diff_bytes(function, prev, *options).decode()

    def _diff_bytes(self, function: Any, prev: Screen, *options: int) -> bytes:
        with self._and(prev) as other:
            return self._bytes(function, other._at, *options)

    @contextlib.contextmanager
    def _and(self, other: Screen) -> Iterator[Screen]:
        """Locks two screens, always in the same order. Yields `other`, or a copy of it if both are
        the same screen."""
        if not isinstance(other, Screen):
            raise TypeError(f"a Screen is required, not {type(other).__name__!r}")
        if other is self:
            other = self.save()
        first, second = sorted((self, other), key=id)
        with first._lock, second._lock:
            yield other

    # Special methods

    def __eq__(self, other: object) -> bool:
        if not isinstance(other, Screen):
            return NotImplemented
        if other is self:
            return True
        with self._and(other) as screen:
            mine, theirs = (bytes(one._state)[: _COMPARED] for one in (self, screen))
            return mine == theirs and self._rows_whole() == screen._rows_whole()

    __hash__ = None  # type: ignore[assignment]

    def __repr__(self) -> str:
        name = f"{type(self).__module__}.{type(self).__qualname__}"
        with self._lock:
            if self._is_closed:
                return f"<{name} closed>"
            rows, cols = self.size
            row, col = self.cursor
            text = self.contents()
        if len(text) > 60:
            text = text[:57] + "..."
        return f"<{name} {rows}x{cols}, cursor ({row}, {col}), {text!r}>"


#: The number of bytes of a `vt100_state` that `==` compares: all except the three numbers about
#: scrollback.
_COMPARED = ctypes.sizeof(State) - 3 * ctypes.sizeof(ctypes.c_size_t)
