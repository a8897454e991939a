"""Tests what bench/terminals makes of differences, with a small terminal that gives some glyphs another width."""
import os
import re
import sys
import tempfile
import unittest
import unittest.mock

ROOT = os.path.dirname(os.path.dirname(os.path.dirname(os.path.abspath(__file__))))
sys.path.insert(0, f"{ROOT}/bench/terminals_lib")
import causes  # noqa: E402
from follow import Terminals  # noqa: E402
from random_streams import BIDIRECTIONAL, SIZES, UNCERTAIN, write_streams  # noqa: E402
from texts import KINDS, Update  # noqa: E402
from widths import Widths, certain_characters, is_right_to_left  # noqa: E402

SIZE = ROWS, COLS = 4, 8
TOKEN = re.compile(r"\x1b\[(?P<numbers>[?0-9;]*)(?P<final>[A-Za-z])|\x1b(?P<escape>[c78])|(?P<glyph>[^\x1b\u0301]\u0301?)")


class Toy:
    """A terminal that reads absolute moves, ED, EL, LF, CR, ECH and glyphs, and gives two columns to a flag."""

    tries, repeats, blanks_have_marks, stays_on_wide, keeps_orphans, reorders = 1, True, False, False, False, False

    def __init__(self, rows, cols):
        self.size = rows, cols
        self.clear()

    def clear(self):
        self.rows, self.place = [[" "] * self.size[1] for _ in range(self.size[0])], (0, 0)

    def feed(self, row):
        if row < self.size[0]:
            return row
        self.rows = [*self.rows[1:], [" "] * self.size[1]]
        return row - 1

    def print(self, glyph):
        columns = 2 if glyph in "漢🇦" else 1
        row, col = self.place
        if col + columns > self.size[1]:
            row, col = self.feed(row + 1), 0
        self.rows[row][col : col + columns] = [glyph] + [None] * (columns - 1)
        self.place = row, col + columns

    def control(self, numbers, final):
        row, col = self.place
        if final == "H":
            places = [int(it or 1) - 1 for it in (numbers or "1;1").split(";")]
            self.place = places[0], places[1]
        elif final == "J":
            self.rows = [[" "] * self.size[1] for _ in range(self.size[0])]
        elif final == "K":
            self.rows[row][col:] = [" "] * (self.size[1] - col)
        elif final == "X":
            self.rows[row][col : col + int(numbers or 1)] = [" "] * min(int(numbers or 1), self.size[1] - col)

    def read(self, text):
        for found in TOKEN.finditer(text.decode()):
            if found["escape"] == "c":
                self.clear()
            elif found["final"]:
                self.control(found["numbers"], found["final"])
            elif found["glyph"] == "\n":
                self.place = self.feed(self.place[0] + 1), self.place[1]
            elif found["glyph"] == "\r":
                self.place = self.place[0], 0
            elif found["glyph"]:
                self.print(found["glyph"])

    def cursor(self):
        return self.place

    def raw(self):
        rows = [self.shown(at) for at in range(self.size[0])]
        return [*rows, [(self.place[0], min(self.place[1], self.size[1] - 1))]]

    def shown(self, at):
        return [*self.rows[at]]

    def display(self, raw):
        return raw

    def end(self):
        pass


class Clipping(Toy):
    """Prints a glyph that has no room at the end of its row in the row's last columns."""

    def print(self, glyph):
        if glyph == "🇦":
            self.place = self.place[0], min(self.place[1], self.size[1] - 2)
        super().print(glyph)


class Reordering(Toy):
    """Displays the letters of a row from right to left if they are, unless EL has ended its wrap into the next row."""

    reorders = True

    def clear(self):
        super().clear()
        self.wrapped = set()

    def control(self, numbers, final):
        super().control(numbers, final)
        if final == "K":
            self.wrapped.discard(self.place[0])

    def print(self, glyph):
        if self.place[1] == self.size[1]:
            self.wrapped.add(self.place[0])
        super().print(glyph)

    def shown(self, at):
        is_turned = at - 1 in self.wrapped and any(is_right_to_left(it) for it in self.rows[at - 1])
        return [*self.rows[at]][:: -1 if is_turned else 1]


def update(lines, cursor, **outputs):
    """Returns an update whose screen has these lines."""
    cells = []
    for line in lines:
        row = "".join(f"{glyph}\x1f" + "\x1f" * (glyph in "漢") for glyph in re.findall("[^\u0301]\u0301?", line))
        cells.append(row + "\0\x1f" * (COLS - row.count("\x1f")))
    texts = {kind.replace("_", " "): text.encode() for kind, text in outputs.items()}
    return Update((*cursor, False), texts, ("\n".join(cells) + "\n").encode())


class Differences(unittest.TestCase):
    def found(self, make, *updates):
        """Returns the kinds and causes of the differences after a chain of updates, of which the last one is compared."""
        self.terminals = terminals = Terminals(make, SIZE)
        terminals.begin()
        for one in updates:
            for kind in terminals.kinds(one, KINDS):
                if not kind.endswith("redraw"):
                    if one is updates[0]:
                        terminals.start(kind, one)
                    else:
                        terminals.extend(kind, one)
        found = terminals.faults(0, (updates[0], [*updates[1:]] or [updates[0]]), KINDS)
        return [(fault.kind, fault.cause) for fault in found]

    def test_no_difference(self):
        one = update(["ab", "", "", "c"], (3, 1), redraw="\x1b[H\x1b[Jab\x1b[4;1Hc")
        self.assertEqual(self.found(Toy, one), [])

    def test_a_missing_glyph(self):
        one = update(["ab", "", "", "c"], (3, 1), redraw="\x1b[H\x1b[Ja\x1b[4;1Hc")
        self.assertEqual(self.found(Toy, one), [("redraw", causes.OTHER)])

    def test_own_widths(self):
        one = update(["🇦b", "", "", ""], (0, 2), portable_redraw="\x1b[H\x1b[J\x1b[1;2Hb\x1b[1;1H🇦\x1b[1;3H")
        self.assertEqual(self.found(Toy, one), [("portable redraw", causes.WIDTHS)])

    def test_a_scroll_that_the_painting_shows_as_well(self):
        corner = f"\x1b[4;{COLS}H🇦\x1b[1;1H"
        one = update(["first", "", "", " " * (COLS - 1) + "🇦"], (0, 0), portable_redraw=f"\x1b[H\x1b[Jfirst{corner}")
        self.assertEqual(self.found(Toy, one), [("portable redraw", causes.SCROLLED)])
        text = f"\x1b[H\x1b[Jfirst\x1b[3;1H🇦{corner}"
        one = update(["first", "", "🇦", " " * (COLS - 1) + "🇦"], (0, 0), portable_redraw=text)
        self.assertEqual(self.found(Toy, one), [("portable redraw", causes.SCROLLED)])
        self.assertNotIn(("portable redraw", causes.SCROLLED), self.found(Clipping, one))

    def test_a_scroll_that_stays_after_its_glyph(self):
        first = update(["first", "", "", ""], (0, 5), portable_redraw="\x1b[H\x1b[Jfirst", portable_diff="")
        corner = f"\x1b[4;{COLS}H"
        second = update(["first", "", "", " " * (COLS - 1) + "🇦"], (3, COLS), portable_diff=f"{corner}🇦",
                        portable_redraw=f"\x1b[H\x1b[Jfirst{corner}🇦")
        third = update(["first", "", "", " " * (COLS - 1) + "x"], (3, COLS), portable_diff=f"{corner}x",
                       portable_redraw=f"\x1b[H\x1b[Jfirst{corner}x")
        self.assertEqual(self.found(Toy, first, second, third), [("portable diff", causes.SCROLLED)])
        self.assertEqual(self.terminals.chains["portable diff"], [third])

    def test_a_glyph_in_the_last_corner_that_has_room(self):
        text = f"\x1b[H\x1b[Jfirst\x1b[4;{COLS - 1}H🇦"
        one = update(["first", "", "", " " * (COLS - 2) + "🇦"], (3, COLS - 1), portable_redraw=text)
        self.assertNotIn(("portable redraw", causes.SCROLLED), self.found(Toy, one))

    def test_bidirectional_text_after_a_wrap(self):
        rows = ["א" * COLS, "אב12", "", ""]
        redraw = f"\x1b[H\x1b[J{rows[0]}\x1b[2;1H{rows[1]}"
        wrapped = f"\x1b[H\x1b[J{rows[0]}{rows[1]}"
        one = update(rows, (1, 4), portable_redraw=wrapped)
        self.assertEqual(self.found(Reordering, one), [("portable redraw", causes.REORDERED)])
        self.assertEqual(self.found(Toy, one), [])
        self.assertEqual(self.found(Reordering, update(rows, (1, 4), portable_redraw=redraw)), [])
        with unittest.mock.patch.object(Reordering, "reorders", False):
            self.assertEqual(self.found(Reordering, one), [("portable redraw", causes.OTHER)])
        torn = update(rows, (1, 4), portable_redraw=wrapped.replace("2", "3"))
        self.assertEqual(self.found(Reordering, torn), [("portable redraw", causes.OTHER)])

    def test_a_lost_glyph(self):
        lost = f"\x1b[H\x1b[Jabcdefgh\x1b[1;{COLS - 1}H\x1b7\b\x1b[X\x1b8\x1b[1;{COLS}H"
        one = update(["abcdefgh", "", "", ""], (0, COLS - 1), redraw=lost.replace("\b", ""))
        self.assertEqual(self.found(Toy, one), [("redraw", causes.OTHER)])
        screen, places = one, [(0, COLS - 2)]
        self.assertTrue(causes.is_lost_glyph(places, screen, [lost.encode()]))
        self.assertFalse(causes.is_lost_glyph(places, screen, [b"\x1b7\x1b[X\x1b8"]))
        self.assertFalse(causes.is_lost_glyph([(0, COLS - 1)], screen, [lost.encode()]))
        self.assertFalse(causes.is_lost_glyph([(ROWS, 0)], screen, [lost.encode()]))

    def test_wide_glyphs_in_moved_columns(self):
        end = "\x1b[3;1H🇦\x1b[1;3H"
        first = update(["漢ab", "", "🇦", ""], (0, 2), scrolling="", redraw=f"\x1b[H\x1b[J漢ab{end}")
        second = update(["漢b", "", "🇦", ""], (0, 2), scrolling="\x1b[P", redraw=f"\x1b[H\x1b[J漢b{end}")
        self.assertIn(("scrolling", causes.COLUMNS), self.found(Toy, first, second))
        screens, texts = [first, second], [b"\x1b[2@"]
        self.assertTrue(causes.is_moved_columns([(0, 3), (ROWS, 0)], screens, texts))
        self.assertFalse(causes.is_moved_columns([(0, 3)], screens, [b"\x1b[2X"]))
        self.assertFalse(causes.is_moved_columns([(0, 3), (1, 3)], screens, texts))

    def test_glyphs_that_scroll(self):
        widths = Widths(Toy)
        for col, count in (COLS - 1, 1), (COLS - 2, 0):
            rows = update(["", "", "", " " * col + "🇦"], (0, 0)).rows
            self.assertEqual(len([*widths.scrolling_glyphs(rows)]), count)
        above = update(["", "", " " * (COLS - 1) + "🇦", ""], (0, 0)).rows
        self.assertEqual([*widths.scrolling_glyphs(above)], [])


class Accepted(unittest.TestCase):
    def test_what_lies_in_the_terminal(self):
        for cause in causes.WIDTHS, causes.LINE_FEED, causes.ORPHAN:
            self.assertTrue(causes.is_accepted("portable diff", cause), cause)

    def test_what_portable_output_avoids(self):
        for cause in causes.SHIFTED, causes.WRAPPED, causes.PLACE, causes.INTENSITY, causes.WIDE, causes.LOST:
            self.assertTrue(causes.is_accepted("scrolling", cause), cause)
            self.assertFalse(causes.is_accepted("portable scrolling", cause), cause)

    def test_what_is_never_accepted(self):
        for cause in causes.SCROLLED, causes.OTHER:
            for kind in KINDS:
                self.assertFalse(causes.is_accepted(kind, cause), (kind, cause))

    def test_the_order_of_bidirectional_text(self):
        for kind in KINDS:
            self.assertEqual(causes.is_accepted(kind, causes.REORDERED), kind in ("redraw", "portable redraw"), kind)

    def test_scrolling_outweighs_other_widths(self):
        self.assertGreater(causes.CAUSES.index(causes.SCROLLED), causes.CAUSES.index(causes.WRAPPED))
        self.assertGreater(causes.CAUSES.index(causes.SCROLLED), causes.CAUSES.index(causes.WIDTHS))


class RandomStreams(unittest.TestCase):
    def setUp(self):
        self.texts = {}
        with tempfile.TemporaryDirectory() as folder:
            write_streams(folder, 24)
            for name in sorted(os.listdir(folder)):
                with open(f"{folder}/{name}", encoding="utf-8", newline="") as file:
                    self.texts[name] = file.read()

    def streams(self, kind):
        return [text for name, text in self.texts.items() if name.startswith(kind) and name.endswith(".bin")]

    def test_bidirectional_text_has_certain_widths(self):
        narrow = set(certain_characters()[1])
        for letter in BIDIRECTIONAL[0]:
            self.assertIn(letter, narrow)
            self.assertTrue(is_right_to_left(letter))
        self.assertFalse(is_right_to_left("1") or is_right_to_left("a"))
        for kind in "certain", "uncertain":
            self.assertTrue(any(set(text) & set(BIDIRECTIONAL[0]) for text in self.streams(kind)))

    def test_decomposed_text(self):
        for glyph in "e\u0301", "\u1112\u1161\u11ab", "か\u3099":
            self.assertIn(glyph, UNCERTAIN)
            self.assertTrue(any(glyph in text for text in self.streams("uncertain")))
            self.assertFalse(any(glyph in text for text in self.streams("certain")))

    def test_glyphs_in_the_last_corner(self):
        glyphs = "|".join(map(re.escape, UNCERTAIN))
        found = 0
        for name, text in self.texts.items():
            if name.startswith("uncertain") and name.endswith(".bin"):
                rows, cols = self.texts[name.replace(".bin", ".size")].split()
                found += len(re.findall(f"\x1b\\[{rows};{cols}H(?:{glyphs})", text))
        self.assertGreater(found, 3)
        self.assertEqual({it.split()[0] for name, it in self.texts.items() if name.endswith(".size")},
                         {str(rows) for rows, _ in SIZES})


if __name__ == "__main__":
    unittest.main()
