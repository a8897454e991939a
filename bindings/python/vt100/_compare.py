"""What differs between two screens."""

from __future__ import annotations

from typing import Iterator, List

from ._cells import Cell
from .screen import Screen

_PROPERTIES = (
    "size",
    "cursor",
    "hide_cursor",
    "cursor_style",
    "alternate_screen",
    "application_keypad",
    "application_cursor",
    "bracketed_paste",
    "mouse_protocol_mode",
    "mouse_protocol_encoding",
    "attributes",
)

#: The number of rows whose differences are listed.
_MAX_ROWS = 20


def diff(left: Screen, right: Screen) -> str:
    """Returns what `==` finds different between two screens, in lines of text: properties, and for
    each row its text or, if the text is equal, the first cell that differs. Empty if the screens
    are equal."""
    lines = []
    for name in _PROPERTIES:
        one, other = getattr(left, name), getattr(right, name)
        if one != other:
            lines.append(f"{name}: {_shown(one)} != {_shown(other)}")
    rows = [line for row in range(min(left.lines, right.lines)) for line in _row(left, right, row)]
    lines += rows[: 3 * _MAX_ROWS]
    if len(rows) > 3 * _MAX_ROWS:
        lines.append("and more rows")
    return "\n".join(lines)


def _shown(value: object) -> str:
    return str(tuple(value)) if isinstance(value, tuple) and len(value) == 2 else repr(value)


def _row(left: Screen, right: Screen, row: int) -> Iterator[str]:
    ones, others = left.cells(row), right.cells(row)
    if ones != others:
        texts = _text(ones), _text(others)
        if texts[0] != texts[1]:
            yield f"row {row}:"
            yield f"  left:  {texts[0]!r}"
            yield f"  right: {texts[1]!r}"
        else:
            yield _first_cell(ones, others, row)
    wrapped = left.row_wrapped(row), right.row_wrapped(row)
    if wrapped[0] != wrapped[1]:
        yield f"row {row}: only the {'left' if wrapped[0] else 'right'} one is wrapped"


def _text(cells: List[Cell]) -> str:
    return "".join(cell.display for cell in cells).rstrip(" ")


def _first_cell(ones: List[Cell], others: List[Cell], row: int) -> str:
    """Describes the first cell that differs. Rows of different lengths can have equal cells."""
    for col, (one, other) in enumerate(zip(ones, others)):
        if one != other:
            return f"row {row}, column {col}: {_cell(one)} != {_cell(other)}"
    return f"row {row}: {len(ones)} columns != {len(others)} columns"


def _cell(cell: Cell) -> str:
    """Returns the parts of a cell that are not the default ones."""
    default = Cell("")
    parts = [f"{name}={getattr(cell, name)!r}" for name in Cell._fields[1:]
             if getattr(cell, name) != getattr(default, name)]
    return f"Cell({', '.join([repr(cell.text), *parts])})"
