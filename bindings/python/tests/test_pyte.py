"""Tests of what callers of pyte look for. Where pyte is installed, its own screens are compared."""

import unittest

import vt100

try:
    import pyte
except ImportError:
    pyte = None


def fed(text, rows=3, cols=10, scrollback=0):
    parser = vt100.Parser(rows, cols, scrollback)
    parser.feed(text)
    return parser


class Names(unittest.TestCase):
    def test_feed_takes_a_string(self):
        self.assertEqual(fed("e\u0301 \u5b57").contents(), "e\u0301 \u5b57")
        mirror = vt100.Mirror(2, 5)
        mirror.feed("abc")
        terminal = fed(mirror.update(mirror.join()).text, 2, 5)
        self.assertEqual(terminal.contents(), "abc")
        with self.assertRaisesRegex(TypeError, "bytes-like"):
            vt100.Parser().process("text")

    def test_color_names(self):
        cell = fed("\x1b[31;42mx")[0, 0]
        self.assertEqual((cell.fg, cell.bg, cell.fgcolor, cell.bgcolor), ("red", "green", 1, 2))
        cell = fed("\x1b[91;48;2;1;2;255mx")[0, 0]
        self.assertEqual((cell.fg, cell.bg), ("brightred", "0102ff"))
        self.assertEqual(vt100.Cell("").fg, "default")
        # xterm's 256 colors: 16 + 36 r + 6 g + b with levels 00 5f 87 af d7 ff, then grays from 08
        for number, name in (
            (3, "brown"),
            (7, "white"),
            (15, "brightwhite"),
            (16, "000000"),
            (21, "0000ff"),
            (67, "5f87af"),
            (231, "ffffff"),
            (232, "080808"),
            (255, "eeeeee"),
        ):
            self.assertEqual(vt100.color_name(number), name)

    def test_titles(self):
        parser = fed("\x1b]2;a title\x07\x1b]1;icon\x07")
        self.assertEqual((parser.title, parser.icon_name), ("a title", "icon"))
        parser.feed("\x1b]0;\u4e2d")
        self.assertEqual(parser.title, "a title")
        parser.process(b"\x1b\\\x1b]2;\xff\x07")
        self.assertEqual((parser.title, parser.icon_name), ("\ufffd", "\u4e2d"))

    def test_a_title_beside_callbacks(self):
        class Titles(vt100.Callbacks):
            seen = b""

            def set_window_title(self, screen, title):
                self.seen += title + screen.title.encode()

        titles = Titles()
        parser = vt100.Parser(callbacks=titles)
        parser.feed("\x1b]2;one\x07")
        self.assertEqual((parser.title, titles.seen), ("one", b"oneone"))

    def test_the_cursor_knows_whether_it_is_hidden(self):
        parser = fed("ab")
        self.assertEqual((parser.cursor, parser.cursor.hidden), ((0, 2), False))
        parser.feed("\x1b[?25l")
        self.assertIs(parser.cursor.hidden, True)
        self.assertEqual((parser.cursor.x, parser.cursor.y), (2, 0))

    def test_dirty_is_a_set(self):
        parser = fed("a\r\nb\r\nc")
        self.assertEqual(parser.dirty, {0, 1, 2})
        parser.dirty.clear()
        self.assertEqual(parser.dirty, set())
        parser.feed("\x1b[2Hx")
        parser.feed("\x1b[3Hy")
        self.assertEqual(parser.dirty, {1, 2})
        self.assertEqual(list(parser.dirty), [1, 2])
        self.assertIn(1, parser.dirty)
        self.assertEqual(parser.dirty | {0}, {0, 1, 2})
        self.assertEqual(repr(parser.dirty), "{1, 2}")
        self.assertEqual(parser.dirty(), {1, 2})
        self.assertFalse(parser.dirty)

    def test_reset(self):
        parser = fed("\x1b]0;t\x07\x1b[1;31m1\r\n2\r\n3\r\n4\x1b[?25l\x1b[?1049h\x1b]2;unfinished", 3, 10, 5)
        parser.reset()
        self.assertEqual(parser, vt100.Parser(3, 10))
        self.assertEqual((parser.title, parser.icon_name), ("", ""))
        self.assertEqual((parser.scrollback_len, parser.pending_len), (0, 0))
        self.assertEqual(parser.scrollback_capacity, 5)
        parser.feed("a")
        self.assertEqual(parser.contents(), "a")

    def test_reset_by_a_callback(self):
        class Resetting(vt100.Callbacks):
            def audible_bell(self, screen):
                screen.reset()

        parser = vt100.Parser(3, 10, callbacks=Resetting())
        parser.feed("ab\x07cd")
        self.assertEqual(parser.contents(), "cd")


class History(unittest.TestCase):
    def test_rows_with_attributes(self):
        parser = fed("\x1b[31mone\x1b[m\r\ntwo\r\nthree\r\nfour\r\nfive", 2, 10, 10)
        history = parser.history
        self.assertEqual(len(history), 3)
        self.assertEqual(history[0][0], vt100.Cell("o", fgcolor=1))
        self.assertEqual("".join(cell.text for cell in history[-1]), "three")
        self.assertEqual([row[0].text for row in history[1:]], ["t", "t"])
        self.assertEqual([row[1].text for row in history[::-1]], ["h", "w", "n"])
        self.assertEqual([row[1].text for row in history], ["n", "w", "h"])
        self.assertEqual(history[5:], [])
        self.assertEqual(history.rows(), ["one", "two", "three"])
        self.assertEqual(history.rows(-2), ["two", "three"])
        self.assertEqual(history.rows(0, 1), ["one"])
        self.assertEqual(repr(history), "<vt100.History of 3 rows>")
        for wrong in (3, -4):
            with self.assertRaisesRegex(IndexError, "row %d of a history of 3 rows" % wrong):
                history[wrong]
        self.assertEqual(parser.display, ["four      ", "five      "])

    def test_the_display_stays_scrolled_back(self):
        parser = fed("1\r\n2\r\n3\r\n4\r\n5", 2, 10, 10)
        parser.set_scrollback(2)
        self.assertEqual(parser.history.rows(), ["1", "2", "3"])
        self.assertEqual((parser.scrollback, parser.rows()), (2, ["2", "3"]))
        self.assertEqual(parser.save().history.rows(), ["1", "2", "3"])

    def test_a_row_that_is_longer_than_the_screen(self):
        parser = fed("abcdefgh\r\n2\r\n3", 2, 10, 10)
        parser.set_size(2, 4)
        self.assertEqual("".join(cell.text for cell in parser.history[0]), "abcdefgh")
        self.assertEqual(parser.history.rows(), ["abcdefgh"])

    def test_the_alternate_screen_has_none(self):
        parser = fed("1\r\n2\r\n3\x1b[?1049h", 2, 10, 10)
        self.assertEqual((len(parser.history), list(parser.history)), (0, []))

    def test_many_rows(self):
        parser = fed("".join("%d\r\n" % number for number in range(5000)), 4, 10, 5000)
        rows = parser.history.rows()
        self.assertEqual(rows, [str(number) for number in range(4997)])
        texts = ["".join(cell.text for cell in row) for row in parser.history]
        self.assertEqual(texts, rows)


@unittest.skipIf(pyte is None, "no pyte")
class Pyte(unittest.TestCase):
    TEXT = "one \x1b[31mred\x1b[m\r\n\x1b[1;44mbold\x1b[m \x1b[38;5;208mx\x1b[38;2;1;2;3my\x1b]2;t\x1b\\"

    def test_screens_agree(self):
        screen = pyte.Screen(20, 3)
        pyte.Stream(screen).feed(self.TEXT)
        parser = fed(self.TEXT, 3, 20)
        self.assertEqual(parser.display, screen.display)
        self.assertEqual((parser.title, parser.columns, parser.lines), ("t", 20, 3))
        self.assertEqual((parser.title, parser.columns), (screen.title, screen.columns))
        self.assertEqual((parser.cursor.x, parser.cursor.y), (screen.cursor.x, screen.cursor.y))
        for row in range(3):
            for col in range(20):
                mine, theirs = parser.buffer[row][col], screen.buffer[row][col]
                self.assertEqual(
                    (mine.display, mine.fg, mine.bg, mine.bold),
                    (theirs.data, theirs.fg, theirs.bg, theirs.bold),
                )

    def test_colors_have_the_names_that_pyte_gives(self):
        for codes in (range(30, 38), range(40, 48), range(90, 98)):
            for code in codes:
                screen = pyte.Screen(2, 1)
                pyte.Stream(screen).feed("\x1b[%dmx" % code)
                mine, theirs = fed("\x1b[%dmx" % code)[0, 0], screen.buffer[0][0]
                # pyte before 0.8.1 does not tell bright colors from others.
                names = {theirs.fg, "bright" + theirs.fg if code >= 90 else theirs.fg}
                self.assertIn(mine.fg, names, code)
                self.assertEqual(mine.bg, theirs.bg, code)
        for number in range(16, 256):
            screen = pyte.Screen(2, 1)
            pyte.Stream(screen).feed("\x1b[38;5;%dmx" % number)
            self.assertEqual(vt100.color_name(number), screen.buffer[0][0].fg, number)


if __name__ == "__main__":
    unittest.main()
