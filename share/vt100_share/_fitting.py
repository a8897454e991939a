"""A screen as a terminal of another size shows it."""

from __future__ import annotations

import textwrap
from typing import List, NamedTuple, Sequence, Tuple

from vt100 import Parser, Screen

#: Resets the input modes, for a terminal in which nobody types to the program.
_NO_INPUT_MODES = b"\x1b>\x1b[?1l\x1b[?2004l\x1b[?9l\x1b[?1000l\x1b[?1002l\x1b[?1003l"

#: Saves the cursor and makes the page plain, and restores the cursor.
_BEGIN, _END = b"\x1b7\x1b[?6l\x1b[r", b"\x1b8"

_HIDE_CURSOR = b"\x1b[?25l"

_FRAME, _LINE = b"\x1b[0;2m", b"\x1b[0;7m"


class Fitted(NamedTuple):
    """A screen of a terminal's size, and how many rows of the program's screen are above it."""

    screen: Screen
    top: int


def fitted(
    screen: Screen,
    size: Tuple[int, int],
    lines: Sequence[str] = (),
    has_frame: bool = True,
    has_input_modes: bool = True,
) -> Fitted:
    """Returns a screen as a terminal of another size shows it: cut off, but so that the row of the
    cursor is visible, or framed if there is room and `has_frame` is true. Texts in `lines` cover
    the last rows."""
    (rows, cols), (height, width) = size, screen.size
    must_write = (
        bool(lines) or not has_input_modes or (has_frame and (rows > height or cols > width))
    )
    if (rows, cols) == (height, width) and not must_write:
        return Fitted(screen, 0)
    row, _ = screen.cursor
    # A terminal that becomes lower first drops the rows below its cursor.
    top = max(0, row + 1 - rows)
    copy = screen.shown_copy()
    copy.set_size(rows, cols)
    if not must_write:
        return Fitted(copy, top)
    parser = Parser(rows, cols)
    parser.swap(copy)
    written = [b"" if has_input_modes else _NO_INPUT_MODES, _BEGIN]
    if has_frame:
        written += _frame(rows, cols, height, width)
    texts = _texts(rows, cols, lines)
    written += [*_covered(rows, cols, texts), _END]
    if parser.cursor.row >= rows - len(texts):
        written.append(_HIDE_CURSOR)
    parser.process(b"".join(written))
    return Fitted(parser, top)


def _frame(rows: int, cols: int, height: int, width: int) -> List[bytes]:
    """Returns what draws the edges of a screen that is smaller than the terminal."""
    parts = [_FRAME]
    if cols > width:
        edge = "\u2502".encode()
        parts += [
            b"\x1b[%d;%dH%b" % (row, width + 1, edge) for row in range(1, min(rows, height) + 1)
        ]
    if rows > height:
        line = "\u2500" * min(width, cols) + ("\u2518" if cols > width else "")
        parts.append(b"\x1b[%d;1H%b" % (height + 1, line.encode()))
    return parts


def _texts(rows: int, cols: int, lines: Sequence[str]) -> List[str]:
    """Returns the rows of lines, at most as many as there are. A line that is too long takes
    several: it is broken at spaces, but not at no-break spaces."""
    texts = [text for line in lines for text in textwrap.wrap(line, cols, break_on_hyphens=False)]
    return [text.replace("\u00a0", " ") for text in texts[-rows:]]


def _covered(rows: int, cols: int, texts: Sequence[str]) -> List[bytes]:
    """Returns what writes texts over the last rows."""
    first = rows - len(texts) + 1
    parts = [_LINE]
    for row, text in enumerate(texts, first):
        parts.append(b"\x1b[%d;1H\x1b[2K%b" % (row, text.ljust(cols).encode()))
    return parts if texts else []
