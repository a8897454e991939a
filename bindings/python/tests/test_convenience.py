"""Tests of conveniences of screens: cells in bulk, display, indexing, search, changes, equality."""

import copy
import random
import re
import unittest

import vt100


def screen_of(data, rows=3, cols=10, scrollback=0):
    parser = vt100.Parser(rows, cols, scrollback)
    parser.process(data.encode() if isinstance(data, str) else data)
    return parser


class Cells(unittest.TestCase):
    SCREEN = "a\x1b[1;31m\u5b57e\u0301\x1b[m\r\n\x1b[44m\x1b[K\x1b[m\r\n\x1b[38;2;9;8;7mz"

    def test_cells_of_a_row(self):
        screen = screen_of(self.SCREEN, 3, 6)
        red = vt100.Cell("", 1, bold=True)
        self.assertEqual(
            screen.cells(0),
            [
                vt100.Cell("a"),
                red._replace(text="\u5b57", wide=True),
                vt100.Cell("", wide_continuation=True),
                red._replace(text="e\u0301"),
                vt100.Cell(""),
                vt100.Cell(""),
            ],
        )
        self.assertEqual(screen.cells(1), [vt100.Cell("", bgcolor=4)] * 6)
        self.assertEqual(screen.cells(2)[0], vt100.Cell("z", (9, 8, 7)))

    def test_cells_are_those_of_cell(self):
        screen = screen_of(self.SCREEN, 3, 6)
        cells = [[screen.cell(row, col) for col in range(6)] for row in range(3)]
        self.assertEqual([screen.cells(row) for row in range(3)], cells)
        self.assertEqual(screen.buffer, cells)
        self.assertEqual(list(screen), cells)

    def test_cells_of_scrollback(self):
        screen = screen_of("a\r\nb\r\nc", 2, 4, 5)
        screen.set_scrollback(1)
        self.assertEqual([cells[0].text for cells in screen], ["a", "b"])

    def test_a_buffer_has_the_columns_of_the_screen(self):
        screen = screen_of("abcd\r\ne\r\nf", 2, 4, 5)
        for cols, first in ((3, ["a", "b", "c"]), (5, ["a", "b", "c", "d", ""])):
            screen.set_scrollback(0)
            screen.set_size(2, cols)
            screen.set_scrollback(1)
            texts = [[cell.text for cell in row] for row in screen.buffer]
            self.assertEqual(texts, [first, ["e"] + [""] * (cols - 1)])

    def test_more_cells_than_are_remembered(self):
        screen = vt100.Parser(100, 100)
        numbers = range(10000)
        screen.feed("".join(f"\x1b[38;2;0;{number // 256};{number % 256}mx" for number in numbers))
        wanted = [(0, number // 256, number % 256) for number in numbers]
        for _ in range(2):
            self.assertEqual([cell.fgcolor for row in screen.buffer for cell in row], wanted)

    def test_a_buffer_keeps_what_it_has(self):
        screen = screen_of("a")
        buffer = screen.buffer
        screen.process(b"\rb")
        self.assertEqual((buffer[0][0].text, screen.buffer[0][0].text), ("a", "b"))

    def test_indexing(self):
        screen = screen_of("abc\r\ndef\r\nghi", 3, 3)
        self.assertEqual(screen[1, 2].text, "f")
        self.assertEqual(screen[1][2].text, "f")
        self.assertEqual(screen.buffer[1][2].text, "f")
        self.assertEqual(screen[-1, -3].text, "g")
        self.assertEqual([cell.text for cell in screen[-3]], ["a", "b", "c"])
        self.assertEqual((screen[-3, 0].text, screen[0, -3].text), ("a", "a"))
        for wrong in (3, -4, 65536, (0, 3), (0, -4), (3, 0), (0, 65536)):
            with self.assertRaises(IndexError):
                screen[wrong]
        for wrong in ("0", 1.0, (0, "1"), None):
            with self.assertRaises(TypeError):
                screen[wrong]

    def test_cells_are_compared_and_hashed(self):
        screen = screen_of("aa\x1b[1ma")
        self.assertEqual(screen[0, 0], screen[0, 1])
        self.assertNotEqual(screen[0, 0], screen[0, 2])
        self.assertEqual(len(set(screen[0])), 3)
        self.assertRegex(repr(screen[0, 2]), r"^Cell\(text='a', .*bold=True, .*\)$")


class Display(unittest.TestCase):
    def test_display_has_each_column(self):
        screen = screen_of("ab\r\n\u5b57\u5b57c", 3, 6)
        self.assertEqual(screen.display, ["ab    ", "\u5b57\u5b57c ", "      "])

    def test_a_cell_displays_a_blank(self):
        screen = screen_of("\u5b57", 1, 4)
        self.assertEqual([cell.display for cell in screen[0]], ["\u5b57", "", " ", " "])


    def test_display_is_what_the_cells_display(self):
        source = random.Random(2)
        pieces = ["a", " ", "\u5b57", "e\u0301", "\r\n", "\x1b[1;3H", "\x1b[44m\x1b[K", "\x1b[5C", "\u2500"]
        for _ in range(200):
            screen = screen_of("".join(source.choice(pieces) for _ in range(40)), 4, 9, 5)
            screen.set_scrollback(source.randrange(3))
            cells = ["".join(cell.display for cell in row) for row in screen.buffer]
            self.assertEqual(screen.display, cells)


class Find(unittest.TestCase):
    def test_places_are_those_of_the_cells(self):
        source = random.Random(3)
        pieces = ["a", "b", " ", "\u5b57", "e\u0301", "\r\n", "\x1b[1;3H", "\x1b[K", "\x1b[5C"]
        for _ in range(200):
            screen = screen_of("".join(source.choice(pieces) for _ in range(60)), 4, 9)
            for text in ("a", "\u5b57", "e"):
                places = [
                    (row, col)
                    for row in range(4)
                    for col in range(9)
                    if screen.cell(row, col).text.startswith(text)
                ]
                self.assertEqual(screen.find(text), places)
            self.assertEqual(len(screen.find(re.compile("(?s)."))), len(screen.contents()))

    def test_places_of_a_text(self):
        screen = screen_of("one two\r\n two one\r\none", 3, 10)
        self.assertEqual(screen.find("one"), [(0, 0), (1, 5), (2, 0)])
        self.assertEqual(screen.find("two")[1].row, 1)
        self.assertEqual(screen.find("two")[1].x, 1)
        self.assertEqual(screen.find("three"), [])
        self.assertEqual(screen.find("."), [])

    def test_matches_do_not_overlap(self):
        self.assertEqual(screen_of("aaaaa").find("aa"), [(0, 0), (0, 2)])

    def test_columns_after_wide_and_combined_characters(self):
        screen = screen_of("\u5b57e\u0301x  y\u5b57z", 2, 12)
        self.assertEqual(screen.find("x"), [(0, 3)])
        self.assertEqual(screen.find("z"), [(0, 9)])
        self.assertEqual(screen.find("\u5b57"), [(0, 0), (0, 7)])
        self.assertEqual(screen.find("\u0301"), [(0, 2)])

    def test_blanks_that_nothing_was_written_to(self):
        screen = screen_of("a\x1b[1;5Hb", 2, 8)
        self.assertEqual(screen.find("a   b"), [(0, 0)])
        self.assertEqual(screen.find("b "), [])

    def test_a_wrapped_row_continues(self):
        screen = screen_of("abcdefghijklmno\r\nnopq", 3, 10)
        self.assertEqual(screen.find("ijkl"), [(0, 8)])
        self.assertEqual(screen.find("klm"), [(1, 0)])
        self.assertEqual(screen.find("no"), [(1, 3), (2, 0)])
        self.assertEqual(screen.find("o\nn"), [(1, 4)])

    def test_a_row_whose_last_column_is_blank_is_not_wrapped(self):
        screen = screen_of("abc\u5b57d", 2, 4)  # the wide character does not fit
        self.assertEqual(screen.find("c\u5b57"), [])
        self.assertEqual(screen.find("c\n\u5b57"), [(0, 2)])
        self.assertEqual(screen.find("\u5b57d"), [(1, 0)])

    def test_patterns(self):
        screen = screen_of("user 12\r\nuser 345", 3, 10)
        self.assertEqual(screen.find(re.compile(r"\d+")), [(0, 5), (1, 5)])
        self.assertEqual(screen.find(re.compile(r"^user", re.M)), [(0, 0), (1, 0)])
        self.assertEqual(screen.find(re.compile("x*")), [])

    def test_an_empty_text_is_refused(self):
        with self.assertRaises(ValueError):
            screen_of("a").find("")


class Dirty(unittest.TestCase):
    def test_rows_that_changed_since_last_asked(self):
        screen = screen_of("a\r\nb\r\nc")
        self.assertEqual(screen.dirty(), {0, 1, 2})
        self.assertEqual(screen.dirty(), set())
        screen.process(b"\x1b[2;1Hx")
        self.assertEqual(screen.dirty(), {1})
        self.assertEqual(screen.dirty(), set())
        screen.process(b"\x1b[2;1Hx\x1b[3;3H")
        self.assertEqual(screen.dirty(), set())
        screen.process(b"\x1b[1;1H\x1b[1ma")
        self.assertEqual(screen.dirty(), {0})
        screen.process(b"\x1b[3;1H\n")
        self.assertEqual(screen.dirty(), {0, 1, 2})

    def test_a_row_that_is_wrapped_now_has_changed(self):
        screen = screen_of("1234567890", 3, 10)
        screen.dirty()
        screen.process(b"1")
        self.assertEqual(screen.dirty(), {0, 1})

    def test_all_rows_change_with_the_size_and_the_view(self):
        screen = screen_of("1\r\n2\r\n3", 2, 10, 5)
        screen.dirty()
        screen.set_size(2, 9)
        self.assertEqual(screen.dirty(), {0, 1})
        screen.set_scrollback(1)
        self.assertEqual(screen.dirty(), {0, 1})
        screen.set_size(1, 9)
        self.assertEqual(screen.dirty(), {0})

    def test_a_copy_has_changes_of_its_own(self):
        screen = screen_of("a")
        screen.dirty()
        saved = screen.save()
        self.assertEqual(saved.dirty(), {0, 1, 2})
        screen.process(b"b")
        self.assertEqual((saved.dirty(), screen.dirty()), (set(), {0}))


class Equality(unittest.TestCase):
    def test_equal_screens(self):
        first, second = screen_of("a\x1b[1mb"), screen_of("a\x1b[1m")
        self.assertNotEqual(first, second)
        second.process(b"b")
        self.assertEqual(first, second)
        self.assertEqual(first, first)
        self.assertEqual(first, first.save())
        self.assertEqual(copy.copy(first.save()), first)
        self.assertEqual(screen_of("x\x1b[2J\x1b[H"), vt100.Parser(3, 10))

    def test_what_makes_screens_differ(self):
        plain = screen_of("a")
        for data in (
            "b",
            "a\x1b[1m",
            "a\x1b[31m",
            "a\x1b[41m",
            "a\x1b[48;2;0;0;1m",
            "a\x1b[H",
            "\x1b[1ma\x1b[m",
            "a\x1b[?25l",
            "a\x1b[?1h",
            "a\x1b=",
            "a\x1b[?2004h",
            "a\x1b[?1000h",
            "a\x1b[2 q",
            "a\x1b[?1049h\x1b[Ha",
        ):
            self.assertNotEqual(screen_of(data), plain, data)
        self.assertNotEqual(screen_of("a", 4), plain)
        wrapped = screen_of("1234567890\x1b[H1")
        self.assertNotEqual(wrapped, screen_of("12345678901\x1b[2;1H\x1b[K\x1b[1;2H"))

    def test_rows_out_of_view_do_not(self):
        first = screen_of("a\r\nb\r\nc\r\nd", 3, 10, 5)
        second = screen_of("x\r\nb\r\nc\r\nd", 3, 10)
        self.assertEqual(first, second)

    def test_a_screen_equals_nothing_else(self):
        for other in (None, "a", 3, vt100.Mirror(3, 10)):
            self.assertNotEqual(screen_of("a"), other)

    def test_screens_change_so_they_are_not_hashed(self):
        with self.assertRaises(TypeError):
            hash(screen_of("a"))


class AsPythonObjects(unittest.TestCase):
    def test_a_parser_in_a_with_statement(self):
        with vt100.Parser(3, 10) as parser:
            parser.process(b"a")
            self.assertEqual(parser.contents(), "a")
        with self.assertRaises(vt100.Error):
            parser.contents()
        with screen_of("b").save() as saved:
            self.assertEqual(saved.contents(), "b")

    def test_representations(self):
        parser = screen_of("hello\r\nyou")
        told = r"3x10, cursor (1, 3), 'hello\nyou'>"
        self.assertEqual(repr(parser), "<vt100.Parser " + told)
        self.assertEqual(repr(parser.save()), "<vt100.Screen " + told)
        self.assertLess(len(repr(screen_of("x" * 5000, 80, 200))), 120)
        self.assertEqual(repr(vt100.Mirror()), "<vt100.Mirror>")
        self.assertEqual(repr(parser.cursor), "Cursor(row=1, col=3, hidden=False)")
        self.assertEqual(repr(parser.size), "Size(rows=3, cols=10)")

    def test_a_class_of_ones_own(self):
        class Own(vt100.Parser):
            def __init__(self, name, *arguments):
                super().__init__(*arguments)
                self.name = name

        own = Own("mine", 2, 5)
        own.process(b"a")
        self.assertEqual((own.name, own.contents(), type(own.save())), ("mine", "a", vt100.Screen))


if __name__ == "__main__":
    unittest.main()
