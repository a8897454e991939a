"""Tests of the examples that show a program in a terminal of its own, as a user sees them.

The variable VT100_REPLIES names the example in Rust, if that is built.
"""

import os
import shutil
import sys
import unittest

from patient import Terminal

FOLDER = os.path.join(os.path.dirname(os.path.abspath(__file__)), "..", "examples")
PROGRAM = "printf '\\033[1;31mred\\033[m '; read -r line; printf '\\033[3;5Hgot %s' \"$line\"; read -r line"


class Replies(unittest.TestCase):
    def assert_shows(self, command):
        with Terminal(command, 8, 40) as terminal:
            screen = terminal.wait_for("red")
            self.assertEqual((screen[0, 0].fg, screen[0, 0].bold), ("red", True))
            terminal.send("some keys\n")
            screen = terminal.wait_for("got some keys")
            self.assertEqual(screen.find("got"), [(2, 4)])
            terminal.send("\n")
            self.assertEqual(terminal.wait_end(), 0)
            self.assertTrue(terminal.screen.find("got some keys"))

    def test_in_python(self):
        self.assert_shows([sys.executable, os.path.join(FOLDER, "replies.py"), "sh", "-c", PROGRAM])

    def test_in_rust(self):
        program = os.environ.get("VT100_REPLIES", "")
        if not os.path.exists(program) or shutil.which("script") is None:
            self.skipTest("VT100_REPLIES names no program, or no script")
        self.assert_shows([program, PROGRAM])


if __name__ == "__main__":
    unittest.main()
