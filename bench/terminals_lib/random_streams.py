"""Streams of random input for small screens: text, attributes, movements, erasures, shifts and scrolling."""

import random

SIZES = (6, 20), (8, 13)
LENGTH = 2400
NARROW, WIDE = "─│éßλж", "漢字語한글日本"
# Letters that are displayed from right to left, to which all terminals give one column, and digits, whose order depends on
# the letters around them.
BIDIRECTIONAL = "אבגדהسلم", "12 "
# Glyphs of several characters, and characters whose width depends on the version of Unicode or on the terminal. The last
# three are decomposed: a Latin letter, a Hangul syllable and a kana.
UNCERTAIN = (
    "❤\ufe0f", "☀\ufe0f", "#\ufe0f", "1\ufe0f\u20e3", "漢\u0301", "का", "🫠", "🫨", "⭐", "🇦",
    "e\u0301", "\u1112\u1161\u11ab", "か\u3099",
)
ATTRIBUTES = ("", "1", "2", "3", "4", "7", "22", "23", "24", "27", "39", "49", "31", "42", "48;5;77", "38;2;95;0;255")
CONTROLS = ("\r\n", "\n", "\r", "\t", "\b", "\x1bM", "\x1b[A", "\x1b[D", "\x1b[r", "\x1b[?25l", "\x1b[?25h")


class Source:
    """Random input for a screen."""

    def __init__(self, seed, size, has_uncertain):
        self.random, self.size = random.Random(seed), size
        self.has_uncertain = has_uncertain

    def text(self):
        """Returns a run of glyphs: equal ones, wide ones, letters and blanks, bidirectional ones, or uncertain ones."""
        pick, count = self.random.choice, self.random.randint(1, self.random.choice((6, self.size[1] + 3)))
        kinds = [lambda: pick("ab =-. x") * count, lambda: pick(NARROW) * count]
        kinds += [lambda: "".join(pick(WIDE) for _ in range(count % 4 + 1))]
        kinds += 2 * [lambda: "".join(pick("abcdefghijklmnopqrstuvwxyz     ") for _ in range(count))]
        kinds += [lambda: "".join(pick(pick(BIDIRECTIONAL)) for _ in range(count))]
        if self.has_uncertain:
            kinds += 2 * [lambda: pick(UNCERTAIN) * (count % 3 + 1)]
        return pick(kinds)()

    def move(self, first=1):
        """Returns an absolute move to a random row and to a column from `first` on, counted from 1."""
        rows, cols = self.size
        return f"\x1b[{self.random.randint(1, rows)};{self.random.randint(first, cols)}H"

    def edge(self):
        """Returns text at the end of a row, and sometimes a control after it."""
        after = self.random.choice(("", "", "\n", "\r\n", "\x1b[K", "\x1b[X", "x"))
        return self.move(max(1, self.size[1] - 4)) + self.text()[:4] + after

    def corner(self):
        """Returns a glyph in the last column of the last row or close to it, where more columns than it has here scroll."""
        rows, cols = self.size
        glyph = self.random.choice(UNCERTAIN if self.has_uncertain else NARROW + WIDE)
        return f"\x1b[{rows};{cols - self.random.choice((0, 0, 1))}H{glyph}"

    def edit(self):
        """Returns an erasure, a shift of rows or columns, or scrolling."""
        count = self.random.choice(("", "", "2", "3", str(self.random.randint(1, self.size[1]))))
        part = self.random.choice(("", "1", "2"))
        return self.random.choice(
            (f"\x1b[{part}K", f"\x1b[{part}J", f"\x1b[{count}X", f"\x1b[{count}@", f"\x1b[{count}P")
            + tuple(f"\x1b[{part}{final}" for final in "LMLMST")
        )

    def region(self):
        """Returns a scroll region, or rows that scroll."""
        rows, cols = self.size
        top = self.random.randint(1, rows - 1)
        lines = (self.random.choice("abc") * self.random.randint(1, cols) for _ in range(rows))
        return self.random.choice((f"\x1b[{top};{self.random.randint(top + 1, rows)}r", "\r\n".join(lines)))

    def stream(self):
        """Returns a stream of at least `LENGTH` bytes."""
        kinds = (
            self.text, self.move, self.edge, self.corner, self.edit, self.region,
            lambda: f"\x1b[{self.random.choice(ATTRIBUTES)}m", lambda: self.random.choice(CONTROLS),
        )
        out = b""
        while len(out) < LENGTH:
            out += self.random.choices(kinds, (35, 12, 9, 5, 15, 2, 15, 7))[0]().encode()
        return out


def write_streams(folder, count):
    """Writes random streams to a folder, half of them with uncertain glyphs: about 48 updates of 50 bytes each."""
    for number in range(count):
        rows, cols = SIZES[number % 2]
        kind = "uncertain" if number % 4 > 1 else "certain"
        with open(f"{folder}/{kind}-{number:03}.bin", "wb") as file:
            file.write(Source(number, (rows, cols), kind == "uncertain").stream())
        with open(f"{folder}/{kind}-{number:03}.size", "w", encoding="ascii") as file:
            file.write(f"{rows} {cols}\n")
