"""Tests of programs that draw on a terminal: less and vim.

    python3 -m pytest test_programs.py
    python3 -m unittest test_programs.py
"""

import os
import re
import shutil
import tempfile
import unittest

import vt100
from vt100.testing import Terminal


def has(program):
    return unittest.skipIf(shutil.which(program) is None, f"no {program}")


class Programs(unittest.TestCase):
    def setUp(self):
        """Makes a file with a number on each line."""
        folder = tempfile.TemporaryDirectory()
        self.addCleanup(folder.cleanup)
        self.path = os.path.join(folder.name, "numbers.txt")
        with open(self.path, "w", encoding="utf-8") as file:
            file.write("".join(f"{number}\n" for number in range(1, 101)))

    @has("less")
    def test_less_shows_pages_and_marks_matches(self):
        with Terminal(["less", self.path], rows=10, cols=40) as terminal:
            screen = terminal.wait_for("numbers.txt")
            assert screen.rows()[:9] == [str(number) for number in range(1, 10)]
            terminal.press("space")
            terminal.wait_for("18")
            terminal.send("/50\r")
            screen = terminal.wait_for(lambda screen: screen.rows()[0] == "50")
            # A terminal type that is not Caldrosk's own may show matches in italics.
            assert all(cell.inverse or cell.italic for cell in screen[0][:2])
            terminal.press("G")
            assert terminal.wait_for("(END)").rows()[8] == "100"
            terminal.press("q")
            assert terminal.wait_end() == 0
            assert not terminal.screen.alternate_screen

    @has("vim")
    def test_vim_inserts_and_saves(self):
        command = ["vim", "--clean", "-n", self.path]
        with Terminal(command, rows=12, cols=60, replies=True) as terminal:
            screen = terminal.wait_for(lambda screen: screen.find("10\n") and screen.cursor == (0, 0))
            assert screen.alternate_screen
            terminal.send("Onew line")
            terminal.wait_for(re.compile(r"^new line\n1\n"))
            terminal.press("escape", "down", "down")
            terminal.wait_for(lambda screen: screen.cursor.row == 2)
            terminal.send(":wq\r")
            assert terminal.wait_end() == 0
        with open(self.path, encoding="utf-8") as file:
            assert file.read().startswith("new line\n1\n2\n")

    @has("vim")
    def test_vim_follows_the_size(self):
        with Terminal(["vim", "--clean", "-n", self.path], rows=12, cols=60) as terminal:
            terminal.wait_for("11")
            terminal.resize(6, 40)
            terminal.wait_for(lambda screen: "5" in screen.rows() and "6" not in screen.rows())
            terminal.send(":q!\r")
            assert terminal.wait_end() == 0


class Screens(unittest.TestCase):
    def test_a_screen_without_a_program(self):
        parser = vt100.Parser(2, 20)
        parser.process(b"this text is \x1b[31mRED\x1b[m")
        assert parser.find("RED") == [(0, 13)]
        assert parser[0, 13].fg == "red"


if __name__ == "__main__":
    unittest.main()
