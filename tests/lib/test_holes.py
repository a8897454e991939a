"""Tries ways to fool the checks, each in a copy of the repository, where the check in question must report it."""
import os
import re
import shutil
import subprocess
import tempfile
import unittest

from built import copy_files
from sources import read

ROOT = os.path.dirname(os.path.dirname(os.path.dirname(os.path.abspath(__file__))))


def write(path, text):
    with open(path, "w", encoding="utf-8") as file:
        file.write(text)


class Holes(unittest.TestCase):
    @classmethod
    def setUpClass(cls):
        cls.room = tempfile.mkdtemp(prefix="holes-")
        copy_files(ROOT, cls.room)
        cls.before = {}

    @classmethod
    def tearDownClass(cls):
        shutil.rmtree(cls.room)

    def said(self, *words):
        """Returns the status and the output of a command in the copy."""
        ran = subprocess.run(
            words, cwd=self.room, stdin=subprocess.DEVNULL, stdout=subprocess.PIPE,
            stderr=subprocess.STDOUT, universal_newlines=True, check=False,
        )
        return ran.returncode, ran.stdout

    def assert_reported(self, file, old, new, command, says):
        """Replaces the first match of a pattern in a file, and asserts that the report of the command contains these
        words.
        """
        path = f"{self.room}/{file}"
        whole = read(path)
        edited = re.sub(old, new, whole, count=1, flags=re.M)
        self.assertNotEqual(edited, whole, f"nothing in {file} is like {old}")
        words = tuple(command)
        if words not in self.before:
            self.before[words] = self.said(*words)[1].split("\n")
        try:
            write(path, edited)
            status, after = self.said(*words)
        finally:
            write(path, whole)
        self.assertEqual(status, 1, after)
        new_lines = set(after.split("\n")) - set(self.before[words])
        self.assertTrue(any(says in it for it in new_lines), after)

    def test_an_edit_that_does_not_fit(self):
        old, new, command = r"(file: src/attrs.rt\nold: )", r"\1no such text ", ["tests/wrong-edits", "--fit"]
        for file, name in [("must-fail/dim-is-bold.edit", "dim-is-bold"), ("wrong-edits.txt", "background-is")]:
            self.assert_reported(f"crates/vt_cells/{file}", old, new, command, name)

    def test_a_wrong_count(self):
        other = "other 9 wrong"
        self.assert_reported("docs/TESTING.md", r"other \d+ wrong", other, ["tests/documents"], other)

    def test_a_clause_quoted_without_its_premise(self):
        quoted = r"^shows : IsSteady picture → "
        self.assert_reported("docs/TRUST.md", quoted, "shows : ", ["tests/trust"], "no such clause")

    def test_a_quoted_clause_that_is_another(self):
        quoted = r"^ensures (\w+) \{"
        self.assert_reported("docs/TRUST.md", quoted, r"ensures \1 { OnOk", ["tests/trust"], "no such clause")

    def test_a_dropped_clause(self):
        line = r"^(Clauses of .*: `\w+`), `\w+`"
        self.assert_reported("docs/TRUST.md", line, r"\1", ["tests/trust"], "that is not named")

    def test_a_dropped_function(self):
        line = r"^Clauses of `Screen::contents_diff`.*\n"
        self.assert_reported("docs/TRUST.md", line, "", ["tests/trust"], "too much")

    def test_a_clause_that_does_not_exist(self):
        line, other = r"`vt100::laws::one_text`, `\w+`", "`vt100::laws::one_text`, `heard`"
        self.assert_reported("docs/THEOREMS.md", line, other, ["tests/documents"], "no such clause: heard")

    def test_a_mark_that_is_removed(self):
        row = r"^(\| `contents_formatted\(\)`) \*\*M\*\*"
        self.assert_reported("docs/INTERFACE.md", row, r"\1", ["tests/surface"], "has no mark")

    def test_a_swapped_argument(self):
        row = r"^\| `set_size\(rows, cols\)`"
        swapped = "| `set_size(cols, rows)`"
        self.assert_reported("docs/INTERFACE.md", row, swapped, ["tests/surface"], "takes (rows, cols)")

    def test_a_function_at_the_root(self):
        root = "crates/vt100/src/lib.rt"
        self.assert_reported(root, r"\Z", "\npub fn stray() {}\n", ["tests/surface"], "not listed: fn stray()")

    def test_a_variant(self):
        file = "crates/vt_cells/src/color.rt"
        self.assert_reported(file, r"^    Idx\(u8\),", "    Idx(u16),", ["tests/surface"], "Color::Idx(u16)")

    def test_a_changed_expectation(self):
        path = "tests/surface.expected"
        self.assert_reported(path, r"^fn Cell::bold \| ", "fn Cell::", ["tests/surface"], "fn Cell::bold")

    def test_a_table_without_its_marker(self):
        self.assert_reported("README.md", r"^<!-- speed -->\n", "", ["bench/table"], "no table speed")
        self.assert_reported("docs/PERFORMANCE.md", r"^<!-- sizes -->\n", "", ["bench/table"], "no table sizes")
        self.assert_reported("README.md", r"^<!-- speed -->$", "<!-- sped -->", ["bench/table"], "README.md: sped")
        self.assert_reported("README.md", r"^(\| log text \|) \d+", r"\1 1", ["bench/table"], "has other counts")

    def test_an_unused_import(self):
        file = "crates/vt_cells/src/color.rt"
        line = r"\A(.*\n)"
        added = r"\1\nghost use Rattle.vt_cells.specs.Attrs.{same_color};\n"
        self.assert_reported(file, line, added, ["tests/imports"], "same_color")


class AlwaysRefused(unittest.TestCase):
    def judged(self, change):
        """Returns the status of the check of a program's output, after a change to that output."""
        heads = re.findall(r"^-- .*$", read(f"{ROOT}/crates/test_refusals/stdout"), re.M)
        text = change("".join(f"{it}\nrefused\n" for it in heads) + "case=none run=ended status=0 \n")
        with tempfile.NamedTemporaryFile("w", encoding="utf-8") as file:
            file.write(text)
            file.flush()
            words = [f"{ROOT}/tests/always-refused", "--judge", file.name]
            return subprocess.run(words, stdout=subprocess.PIPE, check=False).returncode

    def test_judgements(self):
        self.assertEqual(self.judged(lambda text: text), 0)
        self.assertEqual(self.judged(lambda text: re.sub(r"-- .*\nrefused\n(?=case)", "", text)), 1)
        self.assertEqual(self.judged(lambda text: text.replace("status=0", "status=101")), 1)
        self.assertEqual(self.judged(lambda text: ""), 1)
