"""Tests of the sizes, modes, attributes, scrollback, cells and texts of screens."""

import unittest

import vt100
from vt100 import CursorStyle, MouseProtocolEncoding, MouseProtocolMode


def screen_of(data, rows=3, cols=10, scrollback=0):
    parser = vt100.Parser(rows, cols, scrollback)
    parser.process(data)
    return parser


class Modes(unittest.TestCase):
    def test_a_fresh_screen(self):
        screen = vt100.Parser()
        self.assertEqual((screen.size, screen.lines, screen.columns), ((24, 80), 24, 80))
        self.assertEqual(screen.cursor, (0, 0))
        for name in (
            "hide_cursor",
            "alternate_screen",
            "application_keypad",
            "application_cursor",
            "bracketed_paste",
        ):
            self.assertIs(getattr(screen, name), False)
        self.assertIs(screen.mouse_protocol_mode, MouseProtocolMode.NONE)
        self.assertIs(screen.mouse_protocol_encoding, MouseProtocolEncoding.DEFAULT)
        self.assertIs(screen.cursor_style, CursorStyle.DEFAULT)
        self.assertEqual(screen.attributes, vt100.Attributes())
        self.assertEqual((screen.scrollback, screen.scrollback_len), (0, 0))
        self.assertEqual(screen.contents(), "")

    def test_modes_are_set_and_reset(self):
        for name, on, off in (
            ("hide_cursor", b"\x1b[?25l", b"\x1b[?25h"),  # DECTCEM
            ("alternate_screen", b"\x1b[?1049h", b"\x1b[?1049l"),
            ("application_keypad", b"\x1b=", b"\x1b>"),  # DECKPAM, DECKPNM
            ("application_cursor", b"\x1b[?1h", b"\x1b[?1l"),  # DECCKM
            ("bracketed_paste", b"\x1b[?2004h", b"\x1b[?2004l"),
        ):
            screen = screen_of(on)
            self.assertIs(getattr(screen, name), True, name)
            screen.process(off)
            self.assertIs(getattr(screen, name), False, name)

    def test_mouse_modes(self):
        for number, mode in (
            (9, MouseProtocolMode.PRESS),
            (1000, MouseProtocolMode.PRESS_RELEASE),
            (1002, MouseProtocolMode.BUTTON_MOTION),
            (1003, MouseProtocolMode.ANY_MOTION),
        ):
            screen = screen_of(b"\x1b[?%dh" % number)
            self.assertIs(screen.mouse_protocol_mode, mode)
            screen.process(b"\x1b[?%dl" % number)
            self.assertIs(screen.mouse_protocol_mode, MouseProtocolMode.NONE)
        for number, encoding in (
            (1005, MouseProtocolEncoding.UTF8),
            (1006, MouseProtocolEncoding.SGR),
        ):
            screen = screen_of(b"\x1b[?%dh" % number)
            self.assertIs(screen.mouse_protocol_encoding, encoding)

    def test_cursor_styles(self):
        for style in CursorStyle:
            self.assertIs(screen_of(b"\x1b[%d q" % style).cursor_style, style)  # DECSCUSR

    def test_attributes_of_the_next_character(self):
        names = {1: "bold", 2: "dim", 3: "italic", 4: "underline", 7: "inverse"}
        for number, name in names.items():
            screen = screen_of(b"\x1b[%dm" % number)
            self.assertEqual(screen.attributes, vt100.Attributes(**{name: True}))
            self.assertIs(getattr(screen, name), True)
            screen.process(b"\x1b[m")
            self.assertIs(getattr(screen, name), False)
        screen = screen_of(b"\x1b[31;48;2;1;2;3m")
        self.assertEqual((screen.fgcolor, screen.bgcolor), (1, (1, 2, 3)))
        screen = screen_of(b"\x1b[97;48;5;200m")
        self.assertEqual((screen.fgcolor, screen.bgcolor), (15, 200))

    def test_the_cursor_has_names(self):
        screen = screen_of(b"\x1b[2;4H")  # CUP counts from 1
        self.assertEqual((screen.cursor.row, screen.cursor.col), (1, 3))
        self.assertEqual((screen.cursor.y, screen.cursor.x), (1, 3))
        self.assertEqual(screen.cursor, (1, 3))
        screen.process(b"1234567")
        self.assertEqual(screen.cursor, vt100.Position(1, 10))

    def test_the_size_has_names(self):
        self.assertEqual((vt100.Parser(3, 9).size.rows, vt100.Parser(3, 9).size.cols), (3, 9))


class Scrollback(unittest.TestCase):
    def test_scrollback_comes_into_view(self):
        parser = screen_of(b"a\r\nb\r\nc\r\nd", 2, 12, 10)
        self.assertEqual((parser.contents(), parser.scrollback_len), ("c\nd", 2))
        self.assertEqual((parser.scrollback, parser.scrollback_capacity), (0, 10))
        parser.set_scrollback(1)
        self.assertEqual((parser.contents(), parser.scrollback), ("b\nc", 1))
        parser.set_scrollback(1 << 40)
        self.assertEqual((parser.contents(), parser.scrollback), ("a\nb", 2))
        parser.set_size(1, 5)
        self.assertEqual((parser.size, parser.row_wrapped(0)), ((1, 5), False))

    def test_scrollback_is_dropped(self):
        parser = screen_of(b"a\r\nb\r\nc\r\nd", 2, 12, 10)
        parser.clear_scrollback()
        self.assertEqual((parser.scrollback_len, parser.scrollback_capacity), (0, 10))
        self.assertEqual(parser.contents(), "c\nd")

    def test_no_more_rows_are_kept_than_the_capacity(self):
        self.assertEqual(screen_of(b"\n" * 20, 2, 5, 3).scrollback_len, 3)

    def test_a_capacity_of_more_than_16_bits(self):
        parser = screen_of(b"1\r\n2\r\n3", 2, 5, 0x10000)
        self.assertEqual((parser.scrollback_capacity, parser.scrollback_len), (0x10000, 1))
        for capacity in (0x10001, 1 << 32, (1 << 64) - 1):
            self.assertEqual(vt100.Parser(2, 5, capacity).scrollback_capacity, capacity)


#: U+231A, a wide character that U+FE0E and U+FE0F make narrow.
NARROWED = "\u231a\ufe0e\ufe0f"


class Steadiness(unittest.TestCase):
    def test_a_screen_with_a_narrowed_glyph_is_not_steady(self):
        screen = vt100.Parser(2, 4)
        self.assertIs(screen.is_steady(), True)
        for text, is_steady in (
            ("\x1b[31mabcd\u4e2d\u6587", True),
            ("\x1b[H\x1b[Je\u0301\u0302", True),
            ("\x1b[H\x1b[Ja\u2764\ufe0fb", True),  # a heart that becomes wide
            ("\x1b[H\x1b[J" + NARROWED, False),
            ("\x1b[?47h", True),
            ("\x1b[?47l", False),
            ("\x1b[1;1Hx", True),
        ):
            screen.process(text.encode())
            self.assertIs(screen.is_steady(), is_steady, repr(text))
            self.assertIs(screen.save().is_steady(), is_steady, repr(text))


class ShownCopies(unittest.TestCase):
    def test_a_shown_copy_displays_the_same_and_nothing_else(self):
        parser = screen_of(b"a\r\nb\r\nc\r\nd", 2, 4, 5)
        copy = parser.shown_copy()
        self.assertIs(type(copy), vt100.Screen)
        self.assertEqual((copy.size, copy.display), ((2, 4), ["c   ", "d   "]))
        self.assertEqual(copy.cursor, (1, 1))
        self.assertEqual((parser.scrollback_len, copy.scrollback_len), (2, 0))
        self.assertEqual(parser.contents_diff(copy), "")
        parser.process(b"e")
        self.assertEqual(copy.contents(), "c\nd")
        self.assertEqual(parser.contents_diff(copy), "e")

    def test_scrollback_that_is_displayed_is_copied(self):
        parser = screen_of(b"a\r\nb\r\nc\r\nd", 2, 4, 5)
        parser.set_scrollback(1)
        copy = parser.shown_copy()
        self.assertEqual((copy.contents(), copy.scrollback_len), ("b\nc", 2))

    def test_a_shown_copy_has_the_displayed_page_alone(self):
        parser = screen_of(b"main\x1b[?1049h\x1b[Halt", 2, 4)
        copy = parser.shown_copy()
        self.assertEqual(copy.contents(), "alt")
        parser.process(b"\x1b[?1049l")
        self.assertEqual((parser.contents(), copy.contents()), ("main", "alt"))


class PendingCommands(unittest.TestCase):
    def test_the_bytes_of_an_unfinished_command_are_counted(self):
        parser = vt100.Parser(2, 4)
        self.assertEqual(parser.pending_len, 0)
        for data, length in (
            (b"ab\x1b]", 0),
            (b"2;ti", 4),
            (b"\r\n", 4),
            (b"\xc3\xa4", 6),
            (b"\x18", 0),
            (b"\x1b]0;title", 7),
            (b"\x1b\\", 0),
            (b"\x1bPtitle", 0),
        ):
            parser.process(data)
            self.assertEqual(parser.pending_len, length, data)


class Cells(unittest.TestCase):
    def test_wide_characters_take_two_cells(self):
        screen = screen_of("\u5b57\x1b[38;2;1;2;3me\u0301".encode(), 1, 10)
        self.assertEqual(screen.cell(0, 0), vt100.Cell("\u5b57", wide=True))
        self.assertEqual(screen.cell(0, 1), vt100.Cell("", wide_continuation=True))
        self.assertEqual(screen.cell(0, 2), vt100.Cell("e\u0301", fgcolor=(1, 2, 3)))
        self.assertEqual(screen.contents_between(0, 0, 0, 3), "\u5b57e\u0301")

    def test_attributes_and_colors(self):
        screen = screen_of(b"\x1b[1;3;7;35;46ma\x1b[2;4;23mb")
        cell = vt100.Cell("a", 5, 6, bold=True, italic=True, inverse=True)
        self.assertEqual(screen.cell(0, 0), cell)
        # The intensity is bold or dim: the last one counts.
        cell = vt100.Cell("b", 5, 6, dim=True, underline=True, inverse=True)
        self.assertEqual(screen.cell(0, 1), cell)
        self.assertNotEqual(screen.cell(0, 1), cell._replace(dim=False))

    def test_a_row_is_wrapped(self):
        screen = screen_of(b"12345678901", 2, 10)
        self.assertEqual([screen.row_wrapped(row) for row in (0, 1)], [True, False])
        self.assertEqual(screen.contents(), "12345678901")


class Texts(unittest.TestCase):
    def test_rows_of_a_range(self):
        screen = screen_of(b"abcdef\r\n\r\nuvwxyz", 3, 10)
        self.assertEqual(screen.rows(), ["abcdef", "", "uvwxyz"])
        self.assertEqual(screen.rows(2, 3), ["cde", "", "wxy"])
        self.assertEqual(screen.rows(4), ["ef", "", "yz"])
        self.assertEqual(screen.rows(65535, 65535), ["", "", ""])

    def test_rows_are_drawn_one_by_one(self):
        screen = screen_of(b"a\x1b[31mb\x1b[m\r\n\x1b[7mcd", 2, 5)
        target = vt100.Parser(2, 5)
        for row, data in enumerate(screen.rows_formatted_bytes()):
            target.process(b"\x1b[%dH\x1b[m" % (row + 1) + data)
        self.assertEqual(target.buffer, screen.buffer)
        prev = screen.save()
        screen.process(b"\x1b[m\x1b[Hx\x1b[2;5Hy")
        for row, text in enumerate(screen.rows_diff(prev)):
            target.process(b"\x1b[%dH\x1b[m" % (row + 1) + text.encode())
        self.assertEqual(target.buffer, screen.buffer)
        self.assertEqual(screen.rows_diff(screen), ["", ""])

    def test_differences_keep_a_second_terminal(self):
        first, second = vt100.Parser(4, 12), vt100.Parser(4, 12)
        second.process(first.contents_formatted().encode())
        for piece in (
            b"one\r\n\x1b[7mtwo\x1b[m\r\nthree",
            b"\r\nfour\r\nfive",
            b"\x1b[?25l\x1b[2;2H",
            b"\x1b[?1h\x1b=\x1b[?1000h\x1b[4 q",
        ):
            before = first.save()
            first.process(piece)
            second.process(first.state_diff(before).encode())
            self.assertEqual(second, first)
        self.assertEqual(first.contents_diff(first), "")
        self.assertEqual(first.state_diff(first), "")
        self.assertEqual(first.contents_diff_bytes(first), b"")
        self.assertEqual(first.state_diff_bytes(first), b"")

    def test_rows_move_if_that_is_shorter(self):
        parser = screen_of(b"aaaaaaaaa\r\nbbbbbbbbb\r\nccccccccc\r\nddddddddd", 4, 10)
        before = parser.save()
        parser.process(b"\r\neeeeeeeee")
        moved = parser.contents_diff_scrolling(before)
        self.assertEqual(moved, "\x1b[H\x1b[M\n\n\neeeeeeeee")
        self.assertEqual(parser.contents_diff_bytes(before, scroll=True), moved.encode())
        self.assertLess(len(moved), len(parser.contents_diff(before)))

    def test_runs_are_repeated_if_the_options_allow_it(self):
        parser = screen_of(b"", 2, 20)
        before = parser.save()
        parser.process("----------\r\n────".encode())
        for repeat, text in (
            (vt100.Repeat.NEVER, "----------\r\n────"),
            (vt100.Repeat.ASCII, "-\x1b[9b\r\n────"),
            (vt100.Repeat.ANY, "-\x1b[9b\r\n─\x1b[3b"),
        ):
            self.assertEqual(parser.contents_diff_with(before, repeat=repeat), text)
            self.assertEqual(parser.contents_diff_bytes(before, repeat=repeat), text.encode())
        self.assertEqual(parser.contents_diff_with(before), parser.contents_diff(before))
        self.assertEqual(parser.contents_diff_with(before, scroll=True), "----------\r\n────")

    def test_portable_output(self):
        for data, text, portable in (
            (b"\x1b[2ma\x1b[22;1mb", "\x1b[2ma\x1b[1mb", "\x1b[2ma\x1b[m\x1b[1mb"),
            (
                b"abcd\r\nxxxxx\x1b[A",
                "abcd\r\nxxxxx\x1b[1;5H \x1b7\x08\x1b[X\x1b8",
                "abcd\r\nxxxxx\x1b[1;5H \x1b7\x1b[1;5H\x1b[X\x1b8",
            ),
        ):
            parser = screen_of(b"", 2, 5)
            before = parser.save()
            parser.process(data)
            clear = "\x1b[?25h\x1b[m\x1b[H\x1b[J"
            self.assertEqual(parser.contents_formatted(), clear + text)
            self.assertEqual(parser.contents_formatted(portable=True), clear + portable)
            data = parser.contents_formatted_bytes(portable=True)
            self.assertEqual(data, (clear + portable).encode())
            self.assertEqual(parser.contents_diff_with(before), text)
            self.assertEqual(parser.contents_diff_with(before, portable=True), portable)
            data = parser.contents_diff_bytes(before, portable=True)
            self.assertEqual(data, portable.encode())

    def test_states_have_options_and_modes(self):
        screen = screen_of(b"", 2, 20)
        before = screen.save()
        self.assertEqual(screen.state_diff_with(before, scroll=True, portable=True), "")
        screen.process(b"\x1b=\x1b[?2004h----------\r\n\x1b[2ma\x1b[22;1mb")
        dim_then_bold, modes = "\x1b[2ma\x1b[m\x1b[1mb", "\x1b=\x1b[?2004h"
        self.assertEqual(screen.state_diff_with(before), screen.state_diff(before))
        self.assertEqual(
            screen.state_diff_with(before, portable=True),
            f"----------\r\n{dim_then_bold}{modes}",
        )
        self.assertEqual(
            screen.state_diff_with(before, repeat=vt100.Repeat.ASCII, portable=True),
            f"-\x1b[9b\r\n{dim_then_bold}{modes}",
        )
        self.assertEqual(
            screen.state_diff_bytes(before, repeat=vt100.Repeat.ASCII, portable=True),
            f"-\x1b[9b\r\n{dim_then_bold}{modes}".encode(),
        )
        self.assertEqual(screen.input_mode_diff_bytes(before), modes.encode())
        clear = "\x1b[?25h\x1b[m\x1b[H\x1b[J"
        self.assertEqual(
            screen.state_formatted(portable=True),
            f"{clear}----------\r\n{dim_then_bold}\x1b=\x1b[?1l\x1b[?2004h",
        )
        self.assertEqual(
            screen.state_formatted(),
            f"{clear}----------\r\n\x1b[2ma\x1b[1mb\x1b=\x1b[?1l\x1b[?2004h",
        )
        self.assertEqual(
            screen.state_formatted_bytes(portable=True),
            f"{clear}----------\r\n{dim_then_bold}\x1b=\x1b[?1l\x1b[?2004h".encode(),
        )

    def test_the_whole_state_is_drawn(self):
        modes = b"\x1b[?1h\x1b=\x1b[?2004h\x1b[?1002h\x1b[?1006h\x1b[5 q"
        screen = screen_of(modes + b"\x1b[1;31mab\x1b[2;3H")
        for text in (
            screen.state_formatted(),
            screen.contents_formatted() + screen.input_mode_formatted(),
        ):
            other = screen_of(text.encode())
            self.assertEqual(other, screen)
        self.assertNotEqual(screen_of(screen.contents_formatted().encode()), screen)

    def test_a_redraw_for_any_scroll_region(self):
        screen = screen_of(b"one\r\ntwo\r\nthree\x1b[2;2H")
        other = screen_of(b"\x1b[2;3r\x1b[?6hrest")
        other.process(screen.contents_formatted_reset().encode())
        self.assertEqual(other, screen)

    def test_parts_of_a_redraw(self):
        screen = screen_of(b"\x1b[1;31mab\x1b[2;3H\x1b[?25l")
        other = screen_of(b"ab")
        other.process(screen.cursor_state_formatted().encode())
        other.process(screen.attributes_formatted().encode())
        self.assertEqual((other.cursor, other.hide_cursor), ((1, 2), True))
        self.assertEqual(other.attributes, vt100.Attributes(fgcolor=1, bold=True))
        basic = screen.contents_formatted_basic()
        self.assertEqual(screen_of(basic.encode()).contents(), "ab")

    def test_input_modes_of_another_size(self):
        first, second = screen_of(b"\x1b[?1h"), screen_of(b"\x1b[?2004h", 5, 20)
        second.process(first.input_mode_diff(second).encode())
        self.assertEqual((second.application_cursor, second.bracketed_paste), (True, False))

    def test_the_setup_of_a_terminal(self):
        screen = screen_of(b"ab\x1b[2;3r\x1b[?6h\x1b]2;title")
        screen.process(vt100.TERMINAL_SETUP.encode() + b"cd\x1b[3;1H\n")
        # The region is the whole page again: the first row scrolls off.
        self.assertEqual((screen.contents(), screen.cursor), ("", (2, 0)))
        stops = vt100.TERMINAL_SETUP.count("\x1b[8C\x1bH")
        self.assertEqual((stops, vt100.TERMINAL_SETUP.count("\x1bH")), (40, 40))
        # Synchronized updates, national characters, and bidirectional text in the program's order.
        for end in ("\x1b[?2026l", "\x1b[?42l", "\x1b[8h", "\x1b[0 k"):
            self.assertIn(end, vt100.TERMINAL_SETUP)

    def test_what_a_terminal_is_left_with(self):
        modes = b"\x1b[1;31m\x1b[?25l\x1b=\x1b[?1;2004h\x1b[5 q"
        for mouse in (b"9", b"1000", b"1002", b"1003"):
            for encoding in (b"1005", b"1006"):
                screen = screen_of(b"text" + modes + b"\x1b[?" + mouse + b";" + encoding + b"h")
                screen.process(vt100.TERMINAL_RESTORE.encode())
                fresh = screen_of(b"text")
                self.assertEqual(screen.input_mode_diff(fresh), "")
                self.assertEqual(screen.contents_diff(fresh), "")


class Saved(unittest.TestCase):
    def test_screens_are_swapped(self):
        parser = screen_of(b"before")
        saved = parser.save()
        parser.process(b" and after")
        parser.swap(saved)
        self.assertEqual((parser.contents(), saved.contents()), ("before", "before and after"))
        parser.process(b"!")
        self.assertEqual(parser.contents(), "before!")

    def test_a_saved_screen_is_no_parser(self):
        saved = screen_of(b"text").save()
        self.assertIs(type(saved), vt100.Screen)
        self.assertFalse(hasattr(saved, "process"))
        self.assertEqual(saved.save().contents(), "text")

    def test_the_screen_of_a_parser(self):
        parser = screen_of(b"text")
        self.assertEqual(parser.screen.contents(), "text")


if __name__ == "__main__":
    unittest.main()
