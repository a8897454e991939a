"""Tests of captures: rows that scroll off with their colors, and the rest of the screen."""

import copy
import unittest

import vt100
from vt100 import capture


class Log(vt100.Callbacks):
    """A capture of all rows."""

    def __init__(self):
        self.capture, self.text, self.rows = vt100.Capture(), "", []

    def on_scroll_row(self, row, alternate_screen):
        self.text += self.capture.add_row(row)
        self.rows.append((row.text, row.wrapped, alternate_screen))


class Captures(unittest.TestCase):
    def test_rows_that_scroll_off(self):
        log = Log()
        parser = vt100.Parser(2, 10, callbacks=log)
        parser.process(b"\x1b[31mred\x1b[m and\r\nabcdefghijkl\r\n\x1b[1mbold")
        self.assertEqual(
            log.rows, [("red and", False, False), ("abcdefghij", True, False)]
        )
        text = log.text + log.capture.add_screen(parser)
        self.assertEqual(capture.to_plain(text), "red and\nabcdefghijkl\nbold")
        self.assertIn("\x1b[31mred\x1b[m and", text)
        rows = [capture.to_plain(row) for row in capture.rows(text, 10)]
        self.assertEqual(rows, ["red and", "abcdefghij", "kl", "bold"])

    def test_all_rows_of_a_screen(self):
        parser = vt100.Parser(2, 10, 5)
        parser.process(b"1\r\n\x1b[32m2\x1b[m\r\n3")
        self.assertEqual(capture.to_plain(vt100.Capture().add_screen(parser)), "1\n2\n3")
        saved = parser.save()
        self.assertEqual(vt100.Capture().add_screen(saved), vt100.Capture().add_screen(parser))
        with self.assertRaises(TypeError):
            vt100.Capture().add_screen("text")

    def test_a_copy_continues_by_itself(self):
        first = vt100.Parser(1, 10)
        first.process(b"a")
        one = vt100.Capture()
        one.add_screen(first)
        other = copy.copy(one)
        self.assertEqual(one.add_screen(first), "\na")
        self.assertEqual(other.add_screen(first), "\na")

    def test_long_rows(self):
        # as in the Rust bindings' test of long captures
        piece = "\x1b[38;2;1;2;3m\u5b57" + "e\u0301" * 300 + "\x1b[m\n"
        text = piece * 20 + "\x1b[1;31m" * 200 + "end"
        self.assertEqual(list(capture.rows(text, 1000)), text.split("\n"))
        self.assertEqual(list(capture.rows(text, 302)), text.split("\n"))
        self.assertEqual(len(list(capture.rows(text, 301))), 41)
        tall = "e" + "\u0301" * 10  # more bytes for a column than a first window has
        rows = capture.rows(tall * 120, 50)
        self.assertEqual(rows, [tall * 50, tall * 50, tall * 20])
        self.assertEqual(capture.to_plain(text), ("\u5b57" + "e\u0301" * 300 + "\n") * 20 + "end")

    def test_representations(self):
        kept = []

        class Keeping(vt100.Callbacks):
            def on_scroll_row(self, row, alternate_screen):
                kept.append(repr(row))

        vt100.Parser(2, 3, callbacks=Keeping()).process(b"ab\r\ncdefg\r\n")
        self.assertEqual(kept, ["<vt100.RowContents 'ab'>", "<vt100.RowContents 'cde', wrapped>"])
        with vt100.Capture() as one:
            self.assertEqual(repr(one), "<vt100.Capture>")
        self.assertEqual(repr(one), "<vt100.Capture closed>")

    def test_a_row_can_be_used_only_in_its_callback(self):
        kept = []

        class Keeping(vt100.Callbacks):
            def on_scroll_row(self, row, alternate_screen):
                kept.append((row, row.formatted_basic()))

        vt100.Parser(1, 10, callbacks=Keeping()).process(b"\x1b[1mx\r\n")
        row, text = kept[0]
        self.assertEqual((text, row.text), ("\x1b[1mx", "x"))
        with self.assertRaisesRegex(vt100.Error, "the callback .* has ended"):
            row.formatted_basic()

    def test_many_rows_at_once(self):
        log = Log()
        parser = vt100.Parser(24, 80, callbacks=log)
        lines = ["\x1b[3%dmline %d\x1b[m" % (number % 8, number) for number in range(2000)]
        parser.process("\r\n".join(lines).encode())
        text = log.text + log.capture.add_screen(parser)
        self.assertEqual(
            capture.to_plain(text), "\n".join("line %d" % number for number in range(2000))
        )
        self.assertEqual(len(capture.rows(text, 80)), 2000)

    def test_rows_of_a_long_capture(self):
        text = "".join("\u5b57" * 300 + "\n" for _ in range(3))
        rows = capture.rows(text, 20)
        self.assertEqual(set(rows[:30]), {"\u5b57" * 10})
        self.assertEqual(capture.rows("", 20), [""])


if __name__ == "__main__":
    unittest.main()
