"""Tests of the plugin of pytest, which runs in a process of its own."""

import importlib.util
import os
import subprocess
import sys
import tempfile
import unittest

import vt100

PROGRAM = """
import vt100
from vt100.testing import WaitFailed

opened = []

def test_programs_run(vt100_terminal):
    first, second = vt100_terminal("cat", 3, 20), vt100_terminal(["cat"], rows=4, cols=9)
    assert (first.screen.size, second.screen.size) == ((3, 20), (4, 9))
    first.send("one\\n")
    second.send("two\\n")
    assert first.wait_for("one\\none").contents() == "one\\none"
    assert second.wait_for("two\\ntwo")
    opened.extend([first, second])

def test_they_are_closed_after_the_test():
    assert [terminal.status is None for terminal in opened] == [False, False]

def test_a_failure_shows_the_screen(vt100_terminal):
    vt100_terminal("echo only", 2, 8).wait_for("other")

def test_screens_are_compared():
    assert vt100.Parser(2, 5) == vt100.Parser(2, 6)
"""


@unittest.skipIf(importlib.util.find_spec("pytest") is None, "no pytest")
class Plugin(unittest.TestCase):
    def test_the_fixture_and_the_comparison(self):
        with tempfile.TemporaryDirectory() as folder:
            path = os.path.join(folder, "test_program.py")
            with open(path, "w", encoding="utf-8") as file:
                file.write(PROGRAM)
            command = [sys.executable, "-m", "pytest", "-q", "-p", "no:cacheprovider", "-p", "vt100_pytest", path]
            package = os.path.dirname(os.path.dirname(os.path.abspath(vt100.__file__)))
            environment = {**os.environ, "PYTEST_DISABLE_PLUGIN_AUTOLOAD": "1", "PYTHONPATH": package}
            done = subprocess.run(
                command, cwd=folder, env=environment, stdout=subprocess.PIPE, universal_newlines=True
            )
        self.assertIn("2 failed, 2 passed", done.stdout)
        self.assertIn("|only    |", done.stdout)
        self.assertIn("size: (2, 5) != (2, 6)", done.stdout)


if __name__ == "__main__":
    unittest.main()
