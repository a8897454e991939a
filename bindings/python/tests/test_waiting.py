"""Tests of waiting for text that a program writes after input."""

import re
import sys
import time
import unittest

from vt100._recent import Recent
from vt100.parser import Parser
from vt100.testing import WaitFailed

from patient import Terminal

PYTHON = [sys.executable, "-S", "-u", "-c"]

# For each line that is read, writes the argument with its number in the place of a percent sign.
LINES = """
import sys
texts = [text.encode().decode("unicode_escape") for text in sys.argv[1:]]
print(end=texts.pop(0))
for text in texts:
    input()
    print(end=text)
input()
"""


class Prompts(unittest.TestCase):
    def run_lines(self, *texts, size=(6, 20)):
        """Runs a program that writes the first text, and a further one after each line of input. Its
        terminal echoes the input."""
        terminal = Terminal([*PYTHON, LINES, *texts], *size)
        self.addCleanup(terminal.close)
        return terminal

    def test_a_shell(self):
        with Terminal(["sh", "-i"], 6, 30, env={"PS1": "$ ", "ENV": None}) as terminal:
            terminal.wait_for("$ ")
            for word in ("one", "two", "three", "four"):  # the last prompts scroll
                terminal.send(f"sleep 0.1; echo {word}\n")
                screen = terminal.wait_for("$ ")
                self.assertEqual(screen.contents().splitlines()[-2:], [word, "$ "])

    def test_the_old_prompt_does_not_count(self):
        terminal = self.run_lines("$ ", "hi\\n$ ", "ho\\n$ ", size=(3, 20))
        terminal.wait_for("$ ")
        terminal.wait_for("$ ")  # no input in between
        terminal.send("a\n")
        self.assertEqual(terminal.wait_for(re.compile(r"^\$ ", re.M)).contents(), "$ a\nhi\n$ ")
        terminal.send("b\n")
        self.assertEqual(terminal.wait_for("$ ").contents(), "$ b\nho\n$ ")

    def test_the_old_prompt_counts_if_it_is_accepted(self):
        terminal = self.run_lines("$ ", "hi\\n$ ")
        terminal.wait_for("$ ")
        terminal.send("a")
        self.assertEqual(terminal.wait_for("$ ", accept_old=True).cursor.row, 0)
        begin = time.monotonic()
        with self.assertRaises(WaitFailed) as failed:
            terminal.wait_for("$ ", 0.3)
        self.assertGreaterEqual(time.monotonic() - begin, 0.3)
        self.assertIn(
            "waiting for '$ ', other than what was displayed before the last input: not done",
            str(failed.exception),
        )
        with self.assertRaisesRegex(WaitFailed, "waiting for 'never': not done"):
            terminal.wait_for("never", 0.2)

    def test_a_part_of_the_text_is_new(self):
        terminal = self.run_lines("count: 1\\n", "\\x1b[1;8H2\\x1b[2;1H")
        terminal.wait_for("count: 1")
        terminal.send("\n")
        self.assertEqual(terminal.wait_for("count: 2").contents(), "count: 2")
        with self.assertRaises(WaitFailed):
            terminal.wait_for("count: ", 0.2)

    def test_an_unfinished_sequence(self):
        terminal = self.run_lines("x\\x1b[5", "Gy")
        terminal.wait_for("x")
        terminal.press("enter")
        self.assertEqual(terminal.wait_for("y").contents(), "x\n    y")

    def test_the_normal_screen_comes_back_with_old_text(self):
        terminal = self.run_lines("$ \\x1b[?1049hpage", "\\x1b[?1049l", "\\n$ ")
        terminal.wait_for("page")
        terminal.send("\n")
        terminal.wait_for(lambda screen: not screen.alternate_screen)
        with self.assertRaises(WaitFailed):
            terminal.wait_for("$ ", 0.2)
        terminal.send("\n")
        self.assertEqual(terminal.wait_for("$ ").contents(), "$ \n\n$ ")

    def test_a_resized_terminal(self):
        terminal = self.run_lines("$ ", "\\x1b[8;38H$ ", size=(3, 10))
        terminal.wait_for("$ ")
        terminal.resize(8, 40)
        terminal.send("\n")
        self.assertEqual(terminal.wait_for("$ ").cursor, (7, 39))

    def test_predicates_get_the_whole_screen(self):
        terminal = self.run_lines("$ ")
        terminal.wait_for("$ ")
        terminal.send("a")
        self.assertTrue(terminal.wait_for(lambda screen: screen.find("$ ")))


class Matches(unittest.TestCase):
    """What `Recent` finds without a program."""

    def recent(self, before, after, size=(3, 10)):
        recent, screen = Recent(*size), Parser(*size, scrollback=5)
        for data in (before, after):
            recent.forget()
            recent.process(data)
            screen.process(data)
        return lambda text: recent.has_match(re.compile(text, re.M), screen)

    def test_wide_characters_and_wrapped_rows(self):
        has = self.recent("\u5b57\u5b57abcd".encode(), "\u5b57ef".encode())
        for text, is_new in (("\u5b57", True), ("abcd", False), ("d\u5b57", True), ("\u5b57\u5b57", False),
                             ("\u5b57a", False), ("f", True), ("ef$", True), ("b.*f", True)):
            self.assertEqual(has(text), is_new, text)

    def test_matches_that_overlap(self):
        self.assertTrue(self.recent(b"aa", b"a")("aa"))
        self.assertFalse(self.recent(b"aaa", b"b")("aa"))

    def test_erased_text_is_not_new(self):
        self.assertFalse(self.recent(b"one two", b"\x1b[2Dx\x1b[D\x1b[X")("one"))

    def test_empty_matches_and_newlines(self):
        has = self.recent(b"one\r\n", b"")
        self.assertTrue(has("$"))
        self.assertFalse(has("one"))

    def test_modes_are_kept(self):
        # The region is rows 2 and 3, so that the line feed scrolls the second row off.
        has = self.recent(b"a\x1b[2;3r\x1b[3;1Hb\x1b[31;44m", b"c\nd")
        self.assertTrue(has("^bc$"))
        self.assertTrue(has("^  d$"))
        self.assertFalse(has("^a$"))

    def test_a_screen_that_is_scrolled_back(self):
        recent, screen = Recent(2, 10), Parser(2, 10, scrollback=5)
        for data in (b"1\r\n2\r\n3", b"4"):
            recent.forget()
            recent.process(data)
            screen.process(data)
        self.assertFalse(recent.has_match(re.compile("2"), screen))
        screen.set_scrollback(1)
        self.assertTrue(recent.has_match(re.compile("2"), screen))
        screen.set_scrollback(0)
        screen.set_size(4, 10)
        self.assertTrue(recent.has_match(re.compile("2"), screen))


class Quiet(unittest.TestCase):
    def test_the_first_output_is_awaited(self):
        code = "import time; time.sleep(0.6); print('late'); time.sleep(100)"
        with Terminal([*PYTHON, code], timeout=60) as terminal:
            self.assertEqual(terminal.wait_quiet(0.1).contents(), "late")

    def test_a_program_that_writes_nothing(self):
        with Terminal([*PYTHON, "import time; time.sleep(100)"], 2, 8) as terminal:
            with self.assertRaisesRegex(WaitFailed, "waiting for 0.1 seconds without output: not"):
                terminal.wait_quiet(0.1, timeout=0.4)
        with Terminal([*PYTHON, ""]) as terminal:
            self.assertEqual(terminal.wait_quiet(0.1, timeout=60).contents(), "")

    def test_the_whole_time_is_quiet(self):
        with Terminal([*PYTHON, "import time; print('only'); time.sleep(100)"]) as terminal:
            terminal.wait_for("only")
            begin = time.monotonic()
            terminal.wait_quiet(0.8)
            self.assertGreaterEqual(time.monotonic() - begin, 0.8)


if __name__ == "__main__":
    unittest.main()
