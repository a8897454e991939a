"""Differences between two displays, and why they differ."""

import re

from texts import BOLD, DIM, is_redraw
from widths import unequal

WIDTHS, WRAPPED, SHIFTED = "own widths", "wrap after own widths", "shifted by own widths"
SCROLLED, REORDERED = "scroll by own widths", "order of bidirectional text"
PLACE, INTENSITY, WIDE, OTHER = "cursor's place", "bold and dim", "wide glyph", "other"
LINE_FEED, ORPHAN, LOST = "line feed after a wide glyph", "half of a wide glyph", "lost glyph"
COLUMNS = "wide glyphs in moved columns"
# The causes that lie in the terminal, and those that portable output avoids. Scrolling is neither, since no later output
# brings the rows back. The order of bidirectional text depends on sequences that diffs choose.
OWN, AVOIDED = (WIDTHS, LINE_FEED, ORPHAN), (SHIFTED, WRAPPED, PLACE, INTENSITY, WIDE, LOST, COLUMNS)
# From the least telling cause of a cell to the most telling one.
CAUSES = (WIDTHS, ORPHAN, WRAPPED, SCROLLED, PLACE, INTENSITY, WIDE, OTHER)


def differences(one, two):
    """Returns the cells in which two terminals differ, however often they draw them."""
    found = []
    for attempt in range(max(one.tries, two.tries)):
        if attempt:
            one.is_drawn = two.is_drawn = False
        raw = one.raw(), two.raw()
        found = raw[0] != raw[1] and unequal(one.display(raw[0]), two.display(raw[1]))
        if not found:
            return []
    return found


def cause_in(screen, place, odd):
    """Returns why the cell at a place differs, as far as the screen tells. Below the rows is the cursor. `odd` contains
    the causes of places on which glyphs with other widths have an effect.
    """
    rows, (row, col) = screen.rows, place
    if row == len(rows):
        return odd.get((screen.cursor[0], min(screen.cursor[1], len(rows[0]) - 1)), PLACE)
    if place in odd:
        return odd[place]
    if rows[row][col][1][2] & (BOLD | DIM):
        return INTENSITY
    return WIDE if any(cell[0] is None for cell in rows[row][max(col - 1, 0) : col + 2]) else OTHER


def is_line_feed(places, screen, text):
    """Returns whether only the cursor differs, and the last of a text is line feeds and SGR after a wide glyph at the end
    of a row.
    """
    downs = re.search(rb"((?:\n|\x1b\[[0-9;]*m)*)$", text)[1].count(b"\n")
    row, rows = screen.cursor[0] - downs, screen.rows
    return places == [(len(rows), 0)] and downs > 0 and row >= 0 and rows[row][-1][0] is None


def is_lost_glyph(places, screen, texts):
    """Returns whether only glyphs before the last column differ, and a text erases there as diffs that are not portable do:
    BS at a pending wrap moves some terminals to the last column, others to the one before it.
    """
    rows, last = len(screen.rows), len(screen.rows[0]) - 1
    erases = any(b"\x1b7\x08\x1b[X\x1b8" in text for text in texts)
    return erases and all(row < rows and last - 2 <= col < last for row, col in places)


def is_moved_columns(places, screens, texts):
    """Returns whether a text moves columns (ICH, DCH), and only rows differ that have wide glyphs on one of the screens."""
    moves = any(re.search(rb"\x1b\[\d*[@P]", text) for text in texts)
    wide = {at for screen in screens for at, row in enumerate(screen.rows) if any(cell[0] is None for cell in row)}
    return moves and {row for row, _ in places} <= wide | {len(screens[-1].rows)}


def cause_of(places, screen, odd, needs_odd):
    """Returns why cells differ. `needs_odd` tells whether they no longer do if each glyph to which the terminal gives
    another width is replaced by one on whose width terminals agree.
    """
    cause = max((cause_in(screen, place, odd) for place in places), key=CAUSES.index)
    is_odd = cause in (WIDTHS, ORPHAN, WRAPPED, SCROLLED)
    if needs_odd:
        return cause if is_odd else SHIFTED
    # Without that, such glyphs explain nothing.
    return OTHER if is_odd else cause


def is_accepted(kind, cause):
    """Returns whether a difference of this kind and cause lies in the terminal, or in what only portable output avoids.
    Paintings wrap no rows, so that redraws whose rows are wrapped differ from them in the order of bidirectional text.
    """
    if cause == REORDERED:
        return is_redraw(kind)
    return cause in OWN or cause in AVOIDED and not kind.startswith("portable")
