"""Tests of rows that scroll off, which are reported in bulk if no other callback is overridden."""

import random
import unittest
from unittest import mock

import vt100


class Rows(vt100.Callbacks):
    def __init__(self):
        self.calls = []

    def on_scroll(self, text, wrapped, alternate_screen):
        self.calls.append((text, wrapped, alternate_screen))

    def events_lost(self, screen):
        self.calls.append("lost")


class Everything(Rows):
    """Callbacks one of which is passed the screen, so that each is invoked at its byte."""

    def unhandled_char(self, screen, char):
        pass


PIECES = [
    b"\n",
    b"\r\n",
    b"\t",
    b"\x08",
    b"some words ",
    b"x" * 50,
    "\u5b57\u4e2d".encode(),
    "e\u0301".encode(),
    b"\x1b[31m",
    b"\x1b[0;1;38:5:9m",
    b"\x1b[m",
    b"\xff",
    b"\xe4\xb8",
]
OTHERS = [
    b"\x1b[5S",
    b"\x1b[300b",
    b"\x1b[3J",
    b"\x1b[?1049h",
    b"\x1b[?1049l",
    b"\x1b[H",
    b"\x1b",
    b"\x1b[",
    b"\x1b[9",
    b"\x1b]2;title",
    b"\x1bP",
    b"\x07",
    b"\x1bD",
    b"\x18",
]


class Bulk(unittest.TestCase):
    def rows_of(self, callbacks, chunks, size, scrollback):
        parser = vt100.Parser(*size, scrollback, callbacks=callbacks)
        for chunk in chunks:
            parser.process(chunk)
        return callbacks.calls, parser.save()

    def test_the_same_rows_as_one_by_one(self):
        source = random.Random(1)
        for case in range(200):
            size = source.choice([(24, 80), (2, 10), (5, 1), (3, 400), (1, 2)])
            pieces = PIECES * 8 + OTHERS if case % 2 else PIECES
            data = b"".join(source.choice(pieces) for _ in range(600))
            cuts = sorted(source.randrange(len(data)) for _ in range(source.randrange(6)))
            chunks = [data[a:b] for a, b in zip([0, *cuts], [*cuts, len(data)])]
            scrollback = source.choice([0, 0, 7])
            bulk, screen = self.rows_of(Rows(), chunks, size, scrollback)
            single, other = self.rows_of(Everything(), [data], size, scrollback)
            self.assertEqual(bulk, single, case)
            self.assertEqual(screen, other, case)

    def test_few_calls_for_many_rows(self):
        library, calls = vt100.parser.library, []

        class Counting:
            def __getattr__(self, name):
                calls.append(name)
                return getattr(library, name)

        rows = Rows()
        parser = vt100.Parser(24, 80, callbacks=rows)
        with mock.patch.object(vt100.parser, "library", Counting()):
            parser.process(b"\x1b[32ma line of text\x1b[m\r\n" * 5000)
        self.assertEqual(len(rows.calls), 5000 - 23)
        self.assertLess(len(calls), 500)

    def test_rows_wait_only_if_no_other_callback_is_overridden(self):
        class Seeing(vt100.Callbacks):
            def on_scroll(self, text, wrapped, alternate_screen):
                seen.append((text, parser.contents()))

        class Hearing(Seeing):
            def audible_bell(self, screen):
                pass

        for callbacks, first, second in (
            (Seeing(), "three\nfour", "three\nfour"),
            (Hearing(), "two", "three"),
            ([Seeing(), vt100.Callbacks()], "three\nfour", "three\nfour"),
        ):
            seen = []
            parser = vt100.Parser(2, 10, callbacks=callbacks)
            parser.process(b"one\r\ntwo\r\n\x07\x1b[31mthree\r\nfour")
            self.assertEqual(seen, [("one", first), ("two", second)])

    def test_no_row_is_lost(self):
        text = b"\x1b[1m\n", "\u5b57".encode() * 700, b"\t" * 9 + b"xxxxxxxx"
        for line in (b"\n", b"\x1b[S\x1b[2S\x1b]2;title\x07", *text):
            for size in ((24, 80), (2, 1000), (1, 65535), (3, 1)):
                rows = Rows()
                vt100.Parser(*size, callbacks=rows).process(line * 3000)
                self.assertNotIn("lost", rows.calls, (line[:3], size))

    def test_a_sequence_of_an_earlier_call_is_reported_at_its_byte(self):
        class Sized(Rows):
            def resize(self, screen, rows, cols):
                self.calls.append((rows, cols, screen.contents()))

        rows = Sized()
        parser = vt100.Parser(2, 20, callbacks=rows)
        parser.process(b"one\r\n\x1b[8;3")
        parser.process(b";7ttwo\r\nthree\r\n")
        gone = [("one", False, False), ("two", False, False)]
        self.assertEqual(rows.calls, [(3, 7, "one"), *gone])

    def test_an_exception_may_leave_a_sequence_unfinished(self):
        class Failing(Rows):
            is_failing = True

            def on_scroll(self, text, wrapped, alternate_screen):
                super().on_scroll(text, wrapped, alternate_screen)
                if self.is_failing:
                    raise KeyError

        rows = Failing()
        parser = vt100.Parser(2, 10, callbacks=rows)
        with self.assertRaises(KeyError):
            parser.process(b"a\r\nb\r\nc\x1b[3" + b"m")
        rows.is_failing = False
        parser.process(b"more\r\nlines\r\n\r\n")
        self.assertNotIn("lost", rows.calls)


if __name__ == "__main__":
    unittest.main()
