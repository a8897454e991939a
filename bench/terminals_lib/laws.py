"""What portable output asks of a terminal, law by law, each tried on random screens: one element is read, and all cells are
compared with those that the law names. A `Z` that is printed after the element shows where the cursor is and which
attributes are set.
"""

import collections
import copy
import dataclasses
import itertools
import random

from causes import differences
from follow import RESET, Terminals
from painting import NUMBERS, color_numbers, move, painted, sgr
from random_streams import NARROW, UNCERTAIN, WIDE
from texts import BOLD, DEFAULT_LOOK, DIM, INVERSE, ITALIC, UNDERLINED

SIZE = ROWS, COLS = 5, 12
LAST = COLS - 1
BLANK = "", DEFAULT_LOOK
PROBE = "Z"
LETTERS = f"abcdefgh{NARROW}"
# Bold and dim are added up in some terminals only, so no look has both.
LOOKS = [
    DEFAULT_LOOK, ("1", "-", 0), ("-", "4", 0), ("-", "-", BOLD), ("-", "-", DIM), ("2", "5", ITALIC),
    ("-", "-", UNDERLINED), ("12", "-", INVERSE), ("95,0,255", "-", BOLD | UNDERLINED), ("-", "77", INVERSE | ITALIC),
]


class Unfit(Exception):
    """A law says nothing of a random case, in which half of a wide glyph would be erased, or a glyph printed on its second
    half.
    """


@dataclasses.dataclass
class Screen:
    """What a terminal displays: rows of cells, as `Update` has them, and the cursor, after the last column if a wrap is
    pending.
    """

    rows: list
    cursor: tuple


@dataclasses.dataclass
class Case:
    """A screen, what is read then, the screens that may be displayed afterwards, and the cells that the law leaves open."""

    before: Screen
    text: str
    after: list
    free: set


class Trial:
    """A case that grows: the terminal displays a random screen, and reads what the methods append."""

    def __init__(self, seed):
        self.random = random.Random(seed)
        self.rows = [self.row() for _ in range(ROWS)]
        self.before, self.text, self.free = Screen(copy.deepcopy(self.rows), (0, 0, False)), "", set()
        self.row_at, self.col, self.look, self.is_hidden = 0, 0, DEFAULT_LOOK, False

    def row(self):
        """Returns a random row of narrow glyphs, wide glyphs and blanks."""
        row, pick = [], self.random.choice
        while len(row) < COLS:
            look, kind = pick(LOOKS), self.random.random()
            if kind < 0.3 and len(row) < LAST:
                row += [(pick(WIDE), look), (None, look)]
            elif kind < 0.7:
                row.append((pick(LETTERS), look))
            else:
                row.append(("", ("-", look[1], 0)))
        return row

    def begins(self, row, col):
        """Returns whether no wide glyph covers both a column and the column before it."""
        return col >= COLS or self.rows[row][col][0] is not None

    def replace(self, row, col, cells):
        """Replaces cells. The law leaves open what becomes of the rest of a wide glyph that is cut in two."""
        end = col + len(cells)
        if not self.begins(row, end):
            self.rows[row][end] = BLANK
            self.free.add((row, end))
        self.rows[row][col:end] = cells
        self.free -= {(row, at) for at in range(col, col + len(cells))}

    def go(self, row, col):
        """Moves the cursor to a position."""
        self.text += move(row, col)
        self.row_at, self.col = row, col

    def go_anywhere(self, rows=ROWS - 1):
        """Moves the cursor to a random position, or leaves a wrap pending, in one of the first rows."""
        if self.random.random() < 0.3:
            self.wait(self.random.randrange(rows))
        else:
            self.go(self.random.randrange(rows), self.random.randrange(COLS))

    def wait(self, row):
        """Prints the last glyph of a row again, which leaves a wrap pending."""
        last = LAST - (self.rows[row][LAST][0] is None)
        glyph, look = self.rows[row][last]
        self.rows[row][last] = glyph or "x", look
        self.text += move(row, last) + sgr(look) + (glyph or "x") + sgr(self.look)
        self.row_at, self.col = row, COLS

    def set_look(self, look=None):
        """Sets attributes, which are random ones if none are given."""
        self.look = look or self.random.choice(LOOKS)
        self.text += sgr(self.look)

    def print(self, glyph):
        """Prints a glyph whose width is certain."""
        if self.col == COLS:
            self.row_at, self.col = self.row_at + 1, 0
        if not self.begins(self.row_at, self.col):
            raise Unfit
        cells = [(glyph, self.look)] + [(None, self.look)] * (glyph in WIDE)
        self.replace(self.row_at, self.col, cells)
        self.text += glyph
        self.col += len(cells)

    def erase(self, sequence, length):
        """Erases cells from the cursor on by a sequence."""
        if not (self.begins(self.row_at, self.col) and self.begins(self.row_at, self.col + length)):
            raise Unfit
        self.replace(self.row_at, self.col, [("", self.look)] * length)
        self.text += sequence

    def case(self):
        """Returns the case, which ends with a probe where the cursor is."""
        self.print(PROBE)
        return self.ended([self.screen()])

    def screen(self):
        """Returns what is displayed now."""
        return Screen(copy.deepcopy(self.rows), (self.row_at, self.col, self.is_hidden))

    def ended(self, after):
        """Returns the case with the screens that may be displayed at its end."""
        return Case(self.before, self.text, after, self.free)

    def end_case(self, row):
        """Returns the case, which ends with a probe. The cursor is at the end of a row, whether or not a wrap is pending."""
        other = copy.deepcopy(self)
        self.row_at, self.col = row, LAST
        other.row_at, other.col = row, COLS
        self.print(PROBE)
        other.print(PROBE)
        self.free |= other.free
        return self.ended([self.screen(), other.screen()])

    def go_to_end(self, rows):
        """Moves the cursor to the last column of one of the first rows, or leaves a wrap pending there. Returns the row."""
        row = self.random.randrange(rows)
        if self.random.random() < 0.5:
            self.wait(row)
        else:
            self.go(row, LAST)
        return row


def prints(trial):
    trial.set_look()
    glyph = trial.random.choice(LETTERS + WIDE)
    trial.go(trial.random.randrange(ROWS - 1), trial.random.randint(0, LAST - (glyph in WIDE)))
    trial.print(glyph)
    return trial.case()


def strays(trial):
    trial.set_look()
    glyph = trial.random.choice(UNCERTAIN)
    room, row = 2 * len(glyph), trial.random.randrange(ROWS - 1)
    trial.go(row, trial.random.randint(0, LAST - room))
    trial.free = {(row, col) for col in range(trial.col - 2, trial.col + room + 1)}
    trial.text += glyph
    trial.go(ROWS - 1, trial.random.randrange(COLS))
    return trial.case()


def wraps(trial):
    trial.wait(trial.random.randrange(ROWS - 2))
    trial.set_look()
    trial.print(trial.random.choice(LETTERS + WIDE))
    return trial.case()


def cup(trial):
    trial.set_look()
    trial.go_anywhere()
    row, col = trial.random.randrange(2 * ROWS), trial.random.randrange(2 * COLS)
    trial.go(row, col)
    trial.row_at, trial.col = min(row, ROWS - 1), min(col, LAST)
    return trial.case()


def cr(trial):
    trial.set_look()
    trial.go_anywhere()
    trial.text += "\r"
    trial.col = 0
    return trial.case()


def cuf(trial):
    trial.set_look()
    trial.go(trial.random.randrange(ROWS), trial.random.randrange(COLS))
    count = trial.random.randint(1, COLS)
    trial.text += f"\x1b[{count}C"
    trial.col = min(trial.col + count, LAST)
    return trial.case()


def bs(trial):
    trial.set_look()
    trial.go(trial.random.randrange(ROWS), trial.random.randrange(1, COLS))
    trial.text += "\b"
    trial.col -= 1
    return trial.case()


def lf(trial):
    trial.set_look()
    trial.go(trial.random.randrange(ROWS - 1), trial.random.randrange(COLS))
    trial.text += "\n"
    trial.row_at += 1
    return trial.case()


def lf_end(trial):
    trial.set_look()
    row = trial.go_to_end(ROWS - 2)
    trial.text += "\n"
    return trial.end_case(row + 1)


def ed(trial):
    trial.set_look()
    trial.go(0, 0)
    trial.text += "\x1b[J"
    trial.rows = [[("", trial.look)] * COLS for _ in range(ROWS)]
    return trial.case()


def erasing(trial, sequence, length):
    """Erases cells from a random column on. No wide glyph is cut in two: st then draws the rest of the row elsewhere."""
    trial.set_look()
    trial.go(trial.random.randrange(ROWS), trial.random.randrange(COLS))
    trial.erase(sequence, length(trial.col))
    return trial.case()


def el(trial):
    return erasing(trial, "\x1b[K", lambda col: COLS - col)


def ech(trial):
    count = trial.random.randint(1, COLS)
    return erasing(trial, f"\x1b[{count}X", lambda col: min(count, COLS - col))


def reset(trial):
    trial.set_look()
    trial.go_anywhere()
    trial.text, trial.look = trial.text + "\x1b[m", DEFAULT_LOOK
    return trial.case()


def change(old, new):
    """Returns the SGR numbers that change a look. They do not set bold while dim is set, or dim while bold is set."""
    numbers = [22] if (old[2] ^ new[2]) & (BOLD | DIM) and old[2] & (BOLD | DIM) else []
    for mark, number in NUMBERS.items():
        if new[2] & mark and (not old[2] & mark or numbers[:1] == [22] and mark in (BOLD, DIM)):
            numbers.append(number)
        elif old[2] & mark and not new[2] & mark and mark not in (BOLD, DIM):
            numbers.append(20 + number)
    for base, was, now in (30, old[0], new[0]), (40, old[1], new[1]):
        if was != now:
            numbers += color_numbers(now, base) or [base + 9]
    return numbers


def change_look(trial):
    """Changes the attributes by an SGR sequence with numbers."""
    look = trial.random.choice([it for it in LOOKS if it != trial.look])
    trial.text += f"\x1b[{';'.join(map(str, change(trial.look, look)))}m"
    trial.look = look


def sgr_changes(trial):
    trial.set_look()
    trial.go_anywhere()
    change_look(trial)
    return trial.case()


def dectcem(trial):
    trial.set_look()
    trial.go_anywhere()
    trial.is_hidden = trial.random.random() < 0.5
    trial.text += f"\x1b[?25{'l' if trial.is_hidden else 'h'}"
    return trial.case()


def decsc_same(trial):
    trial.set_look()
    trial.go_anywhere()
    trial.text += "\x1b7"
    return trial.case()


def restored(trial, between):
    """Saves the cursor at the end of a row, reads what a function appends, and restores the cursor elsewhere."""
    trial.set_look()
    row, look = trial.go_to_end(ROWS - 2), trial.look
    trial.text += "\x1b7"
    between(trial)
    trial.go(trial.random.randrange(ROWS), trial.random.randrange(COLS))
    trial.text += "\x1b8"
    trial.look = look
    return trial.end_case(row)


def decrc(trial):
    return restored(trial, lambda trial: None)


def reset_saved(trial):
    return restored(trial, lambda trial: trial.set_look(DEFAULT_LOOK))


def sgr_saved(trial):
    return restored(trial, change_look)


def decrc_same(trial):
    def restore_once(trial):
        trial.text += "\x1b8"

    return restored(trial, restore_once)


def shifting(trial, final, place):
    """Inserts or deletes rows at the first column of a row, with default attributes."""
    row, count = trial.random.randrange(ROWS), trial.random.randint(1, ROWS)
    trial.go(row, 0)
    trial.text += f"\x1b[{count}{final}"
    count = min(count, ROWS - row)
    blank = [[BLANK] * COLS for _ in range(count)]
    rest = trial.rows[row:]
    trial.rows[row:] = place(rest, blank, count)
    return trial.case()


def il(trial):
    return shifting(trial, "L", lambda rest, blank, count: blank + rest[: len(rest) - count])


def dl(trial):
    return shifting(trial, "M", lambda rest, blank, count: rest[count:] + blank)


# The laws by name. `strays` is about glyphs on whose width terminals may disagree, and says which cells they leave as they
# are. The laws that end with `_end` are about a cursor in the last column or after it, and those with `_saved` about the
# saved cursor.
LAWS = {
    "prints": prints, "strays": strays, "wraps": wraps, "cup": cup, "cr": cr, "cuf": cuf, "bs": bs, "lf": lf,
    "lf_end": lf_end, "ed": ed, "el": el, "ech": ech, "reset": reset, "reset_saved": reset_saved, "sgr": sgr_changes,
    "sgr_saved": sgr_saved, "dectcem": dectcem, "decsc_same": decsc_same, "decrc": decrc, "decrc_same": decrc_same,
    "il": il, "dl": dl,
}


# The laws that terminals are known to break. docs/DIFFERENCES.md says how.
KNOWN = {("libvterm", "lf_end"), ("st", "lf_end")}


def broken_places(terminals, case):
    """Returns the cells in which a terminal differs from each of the screens that a law allows, or none if it displays one
    of them.
    """
    one, two, marks = terminals.get("one"), terminals.get("two"), terminals.make.blanks_have_marks
    one.read(RESET + painted(case.before, marks) + case.text.encode())
    places = []
    for screen in case.after:
        two.read(RESET + painted(screen, marks))
        places = [place for place in differences(one, two) if place not in case.free]
        if not places:
            return []
    return places


def cases(name):
    """Yields random cases of a law."""
    for number in itertools.count():
        try:
            yield LAWS[name](Trial(f"{name} {number}"))
        except Unfit:
            pass


def broken_laws(make, count):
    """Tries each law `count` times in a terminal. Returns what shows that the terminal breaks it, by the law's name."""
    terminals, found = Terminals(make, SIZE), collections.defaultdict(list)
    for name in LAWS:
        for case in itertools.islice(cases(name), count):
            if places := broken_places(terminals, case):
                found[name].append(f"cells {places[:4]} after {case.text!r}")
    terminals.end()
    return found
