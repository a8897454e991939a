"""Tests of the updates that vt100-share makes for viewers in step, behind, and new."""

import random
import unittest

from sharing import Terminal, noise, recorded
from vt100_share import _messages as messages
from vt100_share._cohort import KEPT, Cohort

#: U+231A, a wide character that U+FE0E and U+FE0F make narrow: printed again, it is wide.
NARROWED = "\u231a\ufe0e\ufe0f"


class Viewers:
    """Viewers of a cohort that join, get messages and leave at random."""

    def __init__(self, data, seed, size=(12, 30)):
        self.rng = random.Random(seed)
        self.cohort = Cohort(*size)
        self.data, self.at = data, 0
        self.versions = {}

    def step(self):
        kind = self.rng.random()
        if kind < 0.4:
            count = self.rng.choice((1, 7, 100, 700))
            self.cohort.process(self.data[self.at : self.at + count])
            self.at += count
        elif kind < 0.6:
            self.cohort.advance()
        elif kind < 0.67:
            self.versions[Terminal()] = None
        elif kind < 0.7 and self.versions:
            del self.versions[self.rng.choice(list(self.versions))]
        elif self.versions:
            self.serve(self.rng.choice(list(self.versions)))

    def serve(self, terminal):
        if self.versions[terminal] != self.cohort.version:
            terminal.take(self.cohort.message(self.versions[terminal]))
            self.versions[terminal] = self.cohort.version

    def finish(self):
        self.cohort.advance()
        for terminal in self.versions:
            self.serve(terminal)


class Random(unittest.TestCase):
    def check(self, data, seed):
        viewers = Viewers(data, seed)
        for _ in range(250):
            viewers.step()
        viewers.finish()
        parser = viewers.cohort.parser
        for terminal in viewers.versions:
            if parser.is_steady():
                self.assertEqual(terminal.parser.state_formatted(), parser.state_formatted())

    def test_every_viewer_displays_the_version(self):
        data = recorded()
        for seed in range(12):
            with self.subTest(seed):
                self.check(noise(seed), seed)
                self.check(data, seed)


class Messages(unittest.TestCase):
    def setUp(self):
        self.cohort = Cohort(3, 10)
        self.terminal = Terminal()
        self.terminal.take(self.cohort.message(None))

    def advance(self, data):
        self.cohort.process(data)
        self.cohort.advance()

    def test_viewers_in_step_get_the_same_message(self):
        self.advance(b"one")
        self.assertIs(self.cohort.message(0), self.cohort.message(0))
        self.assertEqual(self.cohort.message(0), b"Done")

    def test_who_is_behind_gets_the_missed_updates_joined(self):
        self.advance(b"one")
        self.advance(b" two")
        self.assertEqual(self.cohort.message(0), b"Done two")

    def test_a_shorter_redraw_replaces_missed_updates(self):
        for number in range(20):
            self.advance(b"\r%d" % (number % 2))
        message = self.cohort.message(0)
        self.assertEqual(message[:1], b"F")
        self.assertEqual(message, self.cohort.message(None))

    def test_updates_are_kept_for_some_versions(self):
        for number in range(KEPT + 3):
            self.advance(b"%c" % (65 + number % 26))
        self.assertEqual(self.cohort.message(0)[:1], b"F")
        self.assertEqual(self.cohort.message(self.cohort.version - 1)[:1], b"D")

    def test_a_redraw_is_that_of_the_version_not_of_later_output(self):
        self.advance(b"one")
        self.cohort.process(b" two")
        joiner = Terminal()
        joiner.take(self.cohort.message(None))
        self.assertEqual(joiner.parser.contents(), "one")
        version = self.cohort.version
        self.cohort.advance()
        joiner.take(self.cohort.message(version))
        self.assertEqual(joiner.parser.contents(), "one two")

    def test_input_modes_reach_viewers(self):
        self.advance(b"\x1b[?1h\x1b[?2004h")
        self.terminal.take(self.cohort.message(0))
        joiner = Terminal()
        joiner.take(self.cohort.message(None))
        for terminal in (self.terminal, joiner):
            self.assertTrue(terminal.parser.application_cursor)
            self.assertTrue(terminal.parser.bracketed_paste)

    def test_an_unsteady_screen_is_corrected_by_a_redraw(self):
        self.advance(NARROWED.encode())
        self.assertFalse(self.cohort.parser.is_steady())
        self.advance(b"\x1b[2J\x1b[Hplain")
        self.assertEqual(self.cohort.message(1)[:1], b"F")
        self.advance(b"er")
        self.assertEqual(self.cohort.message(2), b"Der")

    def test_output_that_changes_nothing_makes_no_version(self):
        self.advance(b"one")
        self.advance(b"\x1b]2;title\x07\x1b[3n\x1b[4;5r\x1b[r\x1b[1;4H")
        self.assertEqual(self.cohort.version, 1)
        self.advance(b"!")
        self.assertEqual(self.cohort.message(1), b"D!")

    def test_titles_have_no_controls(self):
        self.assertEqual(messages.title(b"a\x1b]0;b\x07\xff\xc2\x9bc"), "Ta]0;b\ufffdc".encode())
        self.assertEqual(len(messages.title(b"a" * 100000)), 1 + messages.MAX_TITLE)
        for title in (b"\xff" * 100000, b"a" + b"\xc3\xa4" * 1000):
            sent = messages.title(title)
            self.assertIn(len(sent), range(messages.MAX_TITLE - 2, messages.MAX_TITLE + 2))
            sent.decode()


if __name__ == "__main__":
    unittest.main()
