"""Runs the programs for Python in the documents of the bindings."""

import os
import re
import shutil
import textwrap
import unittest

from vt100._keys import _OTHER_NAMES, _SHORT_MODIFIERS
from vt100.testing import KEYS

FOLDER = os.path.join(os.path.dirname(os.path.abspath(__file__)), os.pardir)
README = os.path.join(FOLDER, "README.md")
BINDINGS = os.path.join(FOLDER, os.pardir, "README.md")


def programs(path):
    """Returns the blocks of a document that are programs for Python."""
    with open(path, encoding="utf-8") as file:
        blocks = file.read().split("```")[1::2]
    return [textwrap.dedent(block[len("python\n") :]) for block in blocks if block.startswith("python\n")]


class Documents(unittest.TestCase):
    def run_all(self, path, least):
        """Runs the programs of a document, which may use names of the ones before. Returns the names."""
        names = {"__name__": "readme"}
        found = programs(path)
        self.assertGreaterEqual(len(found), least)
        for number, program in enumerate(found):
            with self.subTest(number):
                exec(compile(program, f"{path}, program {number}", "exec"), names)
        return names

    def test_readme(self):
        names = self.run_all(README, 5)
        if shutil.which("less"):
            before = os.getcwd()
            self.addCleanup(os.chdir, before)
            os.chdir(FOLDER)
            names["test_less_shows_the_end"]()

    def test_each_key_is_named(self):
        with open(README, encoding="utf-8") as file:
            text = file.read()
        names = [name for name in KEYS if not re.fullmatch(r"f\d+|keypad_\d", name)]
        modifiers = [f"{name}-" for name in _SHORT_MODIFIERS]
        for name in [*names, *_OTHER_NAMES, *modifiers, "f1` to `f12", "keypad_0` to `keypad_9"]:
            self.assertIn(f"`{name}`", text)

    @unittest.skipUnless(os.path.exists(BINDINGS), "not in a checkout")
    def test_readme_of_the_bindings(self):
        self.run_all(BINDINGS, 1)


if __name__ == "__main__":
    unittest.main()
