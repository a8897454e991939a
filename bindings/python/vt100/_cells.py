"""Cells, and the values that describe a screen."""

from __future__ import annotations

import enum
import struct
from typing import Dict, List, NamedTuple, Tuple, Union

#: None for the default color, the index of a palette color, or a tuple of red, green and blue.
Color = Union[None, int, Tuple[int, int, int]]

#: The names of the first eight palette colors, as pyte spells them.
_COLOR_NAMES = ("black", "red", "green", "brown", "blue", "magenta", "cyan", "white")

#: The attributes for each value of `flags`: bold, dim, italic, underline, inverse, wide,
#: continuation.
FLAGS = [tuple(flags >> bit & 1 == 1 for bit in range(7)) for flags in range(256)]

#: The size of a `vt100_cell` in bytes.
CELL_SIZE = 40
#: The offsets of the length of the text and of the flags in a `vt100_cell`, and two of the flags.
CELL_LEN, CELL_FLAGS = 30, 31
WIDE, WIDE_CONTINUATION = 32, 64

_CELL = struct.Struct("30s10B")
_WHOLE_CELL = struct.Struct(f"{CELL_SIZE}s")


class Position(NamedTuple):
    """A position on a screen. Rows and columns are 0-based."""

    row: int
    col: int

    @property
    def y(self) -> int:
        """The row."""
        return self.row

    @property
    def x(self) -> int:
        """The column."""
        return self.col


class Cursor(Position):
    """The position of a cursor, and whether it is hidden. It compares as its position."""

    hidden: bool

    def __new__(cls, row: int, col: int, hidden: bool = False) -> Cursor:
        self = super().__new__(cls, row, col)
        self.hidden = hidden
        return self

    def __repr__(self) -> str:
        return f"Cursor(row={self.row}, col={self.col}, hidden={self.hidden})"


class Size(NamedTuple):
    """The size of a screen."""

    rows: int
    cols: int


class Attributes(NamedTuple):
    """The attributes with which the next character is drawn."""

    fgcolor: Color = None
    bgcolor: Color = None
    bold: bool = False
    dim: bool = False
    italic: bool = False
    underline: bool = False
    inverse: bool = False


class Cell(NamedTuple):
    """A cell of a screen.

    `text` is a character followed by its combining characters. It is empty if nothing was written
    to the cell, and in the continuation cell of a wide character.
    """

    text: str
    fgcolor: Color = None
    bgcolor: Color = None
    bold: bool = False
    dim: bool = False
    italic: bool = False
    underline: bool = False
    inverse: bool = False
    wide: bool = False
    wide_continuation: bool = False

    @property
    def display(self) -> str:
        """The text, or a space if nothing was written to the cell. Empty in a continuation cell."""
        return self.text or ("" if self.wide_continuation else " ")

    @property
    def fg(self) -> str:
        """The name of the foreground color (see `color_name`)."""
        return color_name(self.fgcolor)

    @property
    def bg(self) -> str:
        """The name of the background color (see `color_name`)."""
        return color_name(self.bgcolor)


class MouseProtocolMode(enum.IntEnum):
    """The mouse events that a program has requested."""

    NONE = 0
    PRESS = 1
    PRESS_RELEASE = 2
    BUTTON_MOTION = 3
    ANY_MOTION = 4


class MouseProtocolEncoding(enum.IntEnum):
    """The encoding of mouse events that are sent to a program."""

    DEFAULT = 0
    UTF8 = 1
    SGR = 2


class CursorStyle(enum.IntEnum):
    """The shape of the cursor, and whether it blinks (DECSCUSR)."""

    DEFAULT = 0
    BLINK_BLOCK = 1
    STEADY_BLOCK = 2
    BLINK_UNDERLINE = 3
    STEADY_UNDERLINE = 4
    BLINK_VERTICAL_BAR = 5
    STEADY_VERTICAL_BAR = 6


def color_of(kind: int, red: int, green: int, blue: int) -> Color:
    """Returns the color that the fields of a `vt100_color` represent."""
    if kind == 0:
        return None
    return red if kind == 1 else (red, green, blue)


def color_name(color: Color) -> str:
    """Returns the name of a color, as pyte spells it: "default", "red", "brightred" and so on for
    the first 16 palette colors, and six hexadecimal digits for other colors. Palette colors from 16
    on have the components that they have in xterm by default."""
    if color is None:
        return "default"
    if isinstance(color, tuple):
        return "%02x%02x%02x" % color
    if color < 16:
        return ("bright" if color > 7 else "") + _COLOR_NAMES[color % 8]
    if color > 231:
        return "%02x" % (8 + 10 * (color - 232)) * 3
    steps = (color - 16) // 36, (color - 16) // 6 % 6, (color - 16) % 6
    return "".join("%02x" % (step and 55 + 40 * step) for step in steps)


def cell_of(record: bytes) -> Cell:
    """Returns the cell that the bytes of a `vt100_cell` represent."""
    return _CACHE[record]


def cells_of(records: bytes) -> List[Cell]:
    """Returns the cells that an array of `vt100_cell` represents."""
    cache = _CACHE
    return [cache[record] for (record,) in _WHOLE_CELL.iter_unpack(records)]


class _Cells(Dict[bytes, Cell]):
    """The cell for each record. Cells are immutable, and a screen has few distinct ones, so that
    most of them are found here."""

    def __missing__(self, record: bytes) -> Cell:
        if len(self) >= 8192:
            self.clear()
        text, length, flags, kind, r, g, b, bg_kind, bg_r, bg_g, bg_b = _CELL.unpack(record)
        cell = Cell(
            text[:length].decode(),
            color_of(kind, r, g, b),
            color_of(bg_kind, bg_r, bg_g, bg_b),
            *FLAGS[flags],
        )
        self[record] = cell
        return cell


_CACHE = _Cells()
