"""Tests of what a relay of vt100-share accepts from the stream."""

import random
import unittest

from sharing import noise, recorded
from vt100_share import _stream as stream
from vt100_share._cohort import Cohort
from vt100_share._messages import MAX_COLS, Nonsense, Row

SIZE = b"\0\x18\0\x50"


class Texts(unittest.TestCase):
    def test_what_a_server_writes_is_accepted(self):
        for seed, data in enumerate((noise(3), noise(4), recorded())):
            cohort, rng, at = Cohort(12, 30, scrollback=50), random.Random(seed), 0
            while at < len(data):
                count = rng.choice((7, 100, 700))
                before = cohort.version
                cohort.process(data[at : at + count])
                cohort.advance()
                at += count
                stream.screen_of(cohort.message(None)[1:])
                if cohort.message(before)[:1] == b"D":
                    stream.text_of(cohort.message(before)[1:], 360)
            run, (number, rows) = b"a" * 16, cohort.history.after(None, 1 << 20)
            self.assertEqual(stream.rows_of(stream.rows_fields(run, number, 50, rows)).rows, rows)

    def test_sequences(self):
        for text in (
            b"", "text \u65e5\u672c".encode(), b"\x1b[m\x1b[1;38;2;1;2;3m", b"\x1b[5;6H\x1b[7G\x1b[8C\x1b[9X",
            b"\x1b[2L\x1b[2M\x1b[2@\x1b[2P\x1b[J\x1b[K", b"\r\n\t\x08", b"\x1b7\x1b8\x1b=\x1b>",
            b"\x1b[?25l\x1b[?1h\x1b[?9h\x1b[?1000h\x1b[?1002l\x1b[?1003h\x1b[?1005h\x1b[?1006l\x1b[?2004h\x1b[4 q",
        ):
            self.assertEqual(stream.text_of(text, 1), text)
        for text in (
            b"\x1b]2;title\x07", b"a\x1b[65535b", b"\x1b[3J", b"\x1b[6n", b"\x1b[c", b"\x1bc", b"\x1b[?1049h", b"\x1b[?6h",
            b"\x1bP", b"\x1b_", b"\x1b(0", b"\x1b", b"\x1b[", b"\x1b[1", b"\x1b[1\x1b[m", b"\x1b[S", b"\x1b[2;3r", b"\x1b[4h",
            b"\x1b[1;\x001H", b"\x1b[7 q", b"\x1b[" + b"1" * 65 + b"m", *(bytes([code]) for code in range(8)), b"\x0b",
            b"\x0c", b"\x0e", b"\x18", b"\x1a", b"\x1f", b"\x7f",
        ):
            with self.subTest(text), self.assertRaises(Nonsense):
                stream.text_of(b"text" + text + b"text", 10)

    def test_lengths(self):
        for cells in (1, 1920):
            most = b"a" * (96 * cells + 4096)
            self.assertEqual(stream.text_of(most, cells), most)
            with self.assertRaises(Nonsense):
                stream.text_of(most + b"a", cells)
        most = b"a" * (96 * 1920 + 4096)
        self.assertEqual(stream.screen_of(SIZE + most), (24, 80, most))
        with self.assertRaises(Nonsense):
            stream.screen_of(SIZE + most + b"a")

    def test_rows(self):
        run, end = b"a" * 16, b"\r\n"
        for row in (end, b"text\x1b[m" + end, b"text \r\x1b[K", b"a" * 96 * MAX_COLS + end):
            rows = [Row(80, row), Row(7, end)]
            self.assertEqual(stream.rows_of(stream.rows_fields(run, 1, 9, rows)).rows, rows)
        for row in (
            b"", b"text", b"\n", b"a\nb" + end, end + end, b"a\n \r\x1b[K", b"\x1b]2;a\x07" + end,
            b"a" * (96 * MAX_COLS + 4096) + end,
        ):
            with self.subTest(row[:20]), self.assertRaises(Nonsense):
                stream.rows_of(stream.rows_fields(run, 1, 9, [Row(80, end), Row(80, row)]))


if __name__ == "__main__":
    unittest.main()
