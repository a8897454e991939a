"""What a terminal makes of glyphs to which it gives another width than the library does, and the characters on whose width
terminals are taken to agree, as the definition lists them.
"""

import os
import re
import unicodedata

from painting import sgr
from texts import BOLD, ITALIC

# A glyph is tried in the middle of a small screen.
SIZE, AT = (5, 40), (2, 8)
# Characters of one and of two columns, on whose width terminals agree. Others are read in their place.
NARROW = [chr(c) for c in range(0x410, 0x450)]
WIDE = [chr(c) for c in range(0x30A1, 0x30FB)]

DEFINITION = f"{os.path.dirname(__file__)}/../../crates/vt_redraw/specs/Certain.antt"
# The parts of the definition that hold for characters of one and of two columns.
PARTS = (("is_certain_narrow", 1), ("is_certain_wide", 2))
# As many characters are read at once. The errors of two would have to cancel each other out to go unseen.
BATCH = 8


def unequal(one, two):
    """Returns the positions of the cells in which two displays differ."""
    if one == two:
        return []
    pairs = enumerate(zip(one, two))
    return [(row, col) for row, (a, b) in pairs for col, (x, y) in enumerate(zip(a, b)) if x != y]


def glyphs_of(row):
    """Yields the glyphs of a row: the column, the glyph, its width, and its attributes."""
    for col, (glyph, look) in enumerate(row):
        if glyph:
            yield col, glyph, 2 if col + 1 < len(row) and row[col + 1][0] is None else 1, look[2]


def is_right_to_left(glyph):
    """Returns whether a glyph is a letter that is displayed from right to left."""
    return unicodedata.bidirectional(glyph[0]) in ("R", "AL")


def start_of(row, col):
    """Returns the first column of the glyph or blank that covers a column of a row."""
    return col - (row[col][0] is None)


class Widths:
    """The effects of glyphs in a terminal, which are tried when they are first needed."""

    def __init__(self, make):
        self.terminal, self.known, self.blank = make(*SIZE), {}, None

    def cursor_after(self, text):
        """Returns where the cursor is after a text at `AT`, which follows a letter on a blank screen."""
        row, col = AT
        self.terminal.read(f"\x1bc\x1b[?25h\x1b[{row + 1};{col}Hx\x1b[{row + 1};{col + 1}H{text}".encode())
        return self.terminal.cursor()

    def columns(self, text):
        """Returns the number of columns by which the terminal moves."""
        return self.cursor_after(text)[1] - AT[1]

    def display(self):
        """Returns the display without the cursor."""
        return self.terminal.display(self.terminal.raw())[: SIZE[0]]

    def effect(self, glyph, marks=0):
        """Returns by how many columns a glyph with some attributes moves, and the places that it changes, relative to its
        first cell.
        """
        marks &= BOLD | ITALIC
        if (glyph, marks) not in self.known:
            if self.blank is None:
                self.cursor_after("")
                self.blank = self.display()
            columns = self.columns(sgr(("-", "-", marks)) + glyph)
            changed = unequal(self.blank, self.display())
            self.known[glyph, marks] = columns, {(row - AT[0], col - AT[1]) for row, col in changed}
        return self.known[glyph, marks]

    def odd_glyphs(self, rows):
        """Yields the glyphs to which the terminal gives another width, or that change other cells when they are printed:
        the row, the column, the glyph, its width, and its attributes.
        """
        for at, row in enumerate(rows):
            for col, glyph, width, marks in glyphs_of(row):
                columns, changed = (width, set()) if glyph.isascii() else self.effect(glyph, marks)
                if columns != width or not changed <= {(0, right) for right in range(width)}:
                    yield at, col, glyph, width, marks

    def drawn(self, rows, at, col):
        """Returns the places on which the glyph that covers a place is drawn. Before the first column is the end of the
        row above, and after the last one the beginning of the row below.
        """
        at, col = at + col // len(rows[0]), col % len(rows[0])
        if not 0 <= at < len(rows):
            return set()
        start = start_of(rows[at], col)
        found = next((it[1:] for it in glyphs_of(rows[at][: start + 2]) if it[0] == start), None)
        if not found:
            return {(at, start)}
        glyph, width, marks = found
        near = self.effect(glyph, marks)[1] | {(0, right) for right in range(width)}
        return {(at + down, start + right) for down, right in near}

    def odd_places(self, rows):
        """Returns the places of such glyphs, and of those next to them that they change."""
        found = set()
        for at, col, glyph, width, marks in self.odd_glyphs(rows):
            columns, changed = self.effect(glyph, marks)
            near = changed | {(0, right) for right in range(width)} | ({(0, width)} if columns != width else set())
            for down, right in near:
                found |= self.drawn(rows, at + down, col + right)
            if col + columns > len(rows[at]):
                # It has no room in its row, and is at the beginning of the next one, before the space that wraps.
                found |= {it for right in range(columns + 1) for it in self.drawn(rows, at + 1, right)}
        return found

    def wrapped_places(self, rows):
        """Returns the places on which the wrap after a glyph of another width at the end of a row has an effect in output
        that is not portable. After a narrower one, the terminal does not wrap, and the first glyph of the next row is
        missing. A wider one is itself at the beginning of the next row, and the first glyph is after it.
        """
        found = set()
        for at, col, glyph, width, marks in self.odd_glyphs(rows):
            columns = self.effect(glyph, marks)[0]
            if col + width == len(rows[at]) and columns != width:
                start = columns if columns > width else 0
                found |= {it for right in range(2) for it in self.drawn(rows, at + 1, start + right)}
        return found

    def orphan_places(self, wide, rows):
        """Returns the rest of each row in which a glyph that takes fewer columns in the terminal is printed over the first
        half of a wide glyph, which the terminal then keeps. `wide` are the places of the wide glyphs before.
        """
        found = set()
        for at, col, glyph, width, marks in self.odd_glyphs(rows):
            columns = self.effect(glyph, marks)[0]
            if columns < width and (at, col + width - 1) in wide:
                found |= {(at, right) for right in range(col + columns, len(rows[at]))}
        return found

    def scrolling_glyphs(self, rows):
        """Yields the glyphs, as `odd_glyphs` does, that are printed beyond the end of the last row, so that the terminal
        scrolls.
        """
        for _, col, glyph, width, marks in self.odd_glyphs(rows[-1:]):
            columns, changed = self.effect(glyph, marks)
            if col + max(columns, *(right + 1 for _, right in changed), 0) > len(rows[-1]):
                yield len(rows) - 1, col, glyph, width, marks


def wide_places(rows):
    """Returns the places of the first halves of wide glyphs."""
    return {(at, col) for at, row in enumerate(rows) for col, _, width, _ in glyphs_of(row) if width == 2}


class Twins:
    """Characters on whose width terminals agree, each in place of a glyph of the same width."""

    def __init__(self, odd, others):
        """Takes the glyphs to be replaced, each with its width, and the other glyphs."""
        self.twins = {glyph: glyph for glyph in others if len(glyph) > 1}
        for number, (glyph, width) in enumerate(sorted(odd)):
            pool = (NARROW, WIDE)[width - 1]
            self.twins[glyph] = pool[number % len(pool)]
        longest = sorted(map(re.escape, self.twins), key=len, reverse=True)
        self.pattern = re.compile("|".join(longest)) if longest else None

    def replace(self, text):
        """Returns a text with the characters in place of the glyphs."""
        if not self.pattern:
            return text
        return self.pattern.sub(lambda found: self.twins[found[0]], text.decode()).encode()


def ranges_of(part, text):
    """Returns the ranges of codes for which a part of the definition holds: those in it, and those of parts that it names."""
    body = text.split(f"\n{part} c =")[1].split("\n\n")[0]
    found = [(int(low, 16), int(high, 16)) for low, high in re.findall(r"\bis_between (0x\w+) (0x\w+) c\b", body)]
    return found + [it for name in re.findall(r"\b(is_\w+) c\b", body) for it in ranges_of(name, text)]


def certain_characters():
    """Returns the characters that the definition lists, by their number of columns."""
    with open(DEFINITION, encoding="utf-8") as file:
        text = file.read()
    return {columns: [chr(c) for low, high in ranges_of(part, text) for c in range(low, high + 1)] for part, columns in PARTS}


def odd_characters(make):
    """Yields the characters, with their columns, to which a terminal gives another width."""
    widths = Widths(make)
    for columns, characters in certain_characters().items():
        for at in range(0, len(characters), BATCH):
            batch = characters[at : at + BATCH]
            if widths.columns("".join(batch)) != columns * len(batch):
                yield from ((it, columns) for it in batch if widths.columns(it) != columns)
    widths.terminal.end()
