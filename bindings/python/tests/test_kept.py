"""Tests of whether anything is half read, and of the scrollback as a sequence of rows."""

import unittest

import vt100

#: What is read, in order, and whether nothing is half read then.
READ = [
    (b"ab", True),
    (b"\x1b", False),
    (b"[", False),
    (b"3\n", False),
    (b"m", True),
    (b"\x1b(", False),
    (b"B", True),
    (b"\x1b[?25", False),
    (b"\x18", True),
    (b"\x1b]0;title", False),
    (b"\x1b", False),
    (b"\\", True),
    (b"\x1bPdata", False),
    (b"\x07", False),
    (b"\x1a", True),
    (b"\xe2\x8c", False),
    (b"x", True),
    (b"\xf0\x9f", False),
    (b"\x1b", False),
    (b"c", True),
    (b"\xff", True),
    (b"", True),
]


class Ground(unittest.TestCase):
    def test_whether_anything_is_half_read(self):
        for reader in (vt100.Parser(2, 8), vt100.Mirror(2, 8)):
            self.assertIs(reader.is_ground, True)
            for data, is_ground in READ:
                reader.process(data)
                self.assertIs(reader.is_ground, is_ground, data)
            reader.close()
            with self.assertRaisesRegex(vt100.Error, "closed"):
                reader.is_ground

    def test_a_reset_parser(self):
        parser = vt100.Parser(2, 8)
        parser.process(b"\x1b[3")
        parser.reset()
        self.assertIs(parser.is_ground, True)


class Erasures(unittest.TestCase):
    def test_how_often_scrollback_was_erased(self):
        parser = vt100.Parser(2, 8, 9)
        for data, count in (
            (b"a\r\nb\r\n", 0),
            (b"\x1b[3", 0),
            (b"J", 1),
            (b"\x1b[?3J\x1b[03;9J", 3),
            (b"\x1bc", 4),
            (b"\x1b[2J\x1b[33J\x1b[;3J\x1b[3K\x1b[>3J\x1b(c", 4),
            (b"\x1b[?1049h\x1b[3J", 5),
        ):
            parser.process(data)
            self.assertEqual(parser.scrollback_erasures, count, data)
        parser.set_size(3, 9)
        parser.clear_scrollback()
        self.assertEqual(parser.scrollback_erasures, 5)
        parser.reset()
        self.assertEqual(parser.scrollback_erasures, 0)
        parser.close()
        with self.assertRaisesRegex(vt100.Error, "closed"):
            parser.scrollback_erasures


def text_of(cells):
    return "".join(cell.display for cell in cells)


class History(unittest.TestCase):
    def setUp(self):
        self.parser = vt100.Parser(2, 4, 9)
        self.parser.feed("ab\r\nwxyz\u4e2d!\r\n\r\n\x1b[31mcd\r\ne\r\n")

    def test_rows_and_slices(self):
        history = self.parser.history
        self.assertEqual(len(history), 5)
        wanted = ["ab  ", "wxyz", "\u4e2d! ", "    ", "cd  "]
        self.assertEqual([text_of(row) for row in history], wanted)
        self.assertEqual([len(row) for row in history], [4] * 5)
        self.assertEqual(history.rows(), ["ab", "wxyz", "\u4e2d!", "", "cd"])
        self.assertEqual(history.rows(-2), ["", "cd"])
        self.assertEqual(history.rows(1, 3), ["wxyz", "\u4e2d!"])
        self.assertEqual([text_of(row) for row in history[::-2]], ["cd  ", "\u4e2d! ", "ab  "])
        self.assertEqual(history[-1][0], vt100.Cell("c", fgcolor=1))
        self.assertEqual(history[-1][3], vt100.Cell(""))
        for place in (5, -6):
            with self.assertRaises(IndexError):
                history[place]

    def test_what_is_displayed_stays(self):
        parser = self.parser
        for shown in (0, 3):
            parser.set_scrollback(shown)
            before = parser.save()
            list(parser.history), parser.history.rows()
            self.assertEqual((parser, parser.scrollback), (before, shown))

    def test_a_later_capture_stays(self):
        # A wrapped row that is narrower than the screen is no longer wrapped once it was displayed.
        parser = vt100.Parser(2, 4, 3)
        parser.process(b"abcdefgh\r\nij\r\nkl")
        parser.set_size(2, 6)
        self.assertEqual([text_of(row) for row in parser.history], ["abcd  ", "efgh  "])
        self.assertEqual(parser.history.rows(), ["abcd", "efgh"])
        self.assertEqual(vt100.Capture().add_screen(parser), "abcdefgh\nij\nkl")

    def test_a_wide_row_has_all_cells(self):
        parser = vt100.Parser(1, 6, 3)
        parser.process(b"abcdef\r\ngh\r\n")
        parser.set_size(1, 4)
        self.assertEqual([text_of(row) for row in parser.history], ["abcdef", "gh  "])
        self.assertEqual(parser.history.rows(), ["abcdef", "gh"])

    def test_the_alternate_screen_has_none(self):
        self.parser.process(b"\x1b[?1049h")
        self.assertEqual((len(self.parser.history), self.parser.history.rows()), (0, []))


if __name__ == "__main__":
    unittest.main()
