"""Tests what tests/wrong-edits reports for edits of a small crate, which the prover judges."""
import os
import shutil
import subprocess
import tempfile
import unittest

ROOT = os.path.dirname(os.path.dirname(os.path.dirname(os.path.abspath(__file__))))

SOURCE = """//! Functions for the tests of tests/wrong-edits.
#![tactic(auto)]

ghost use Rattle.std.specs.Prelude.{◌≡◌};

/// Returns its first argument.
pub fn first(a: u8, b: u8) -> u8
    ensures { result ≡ a }
{
    let _ = b;
    let chosen = a;
    chosen
}

/// Returns its second argument.
pub fn second(a: u8, b: u8) -> u8
    ensures { result ≡ b }
{
    let other = first(b, a);
    other
}

/// Returns its argument.
pub fn third(a: u8) -> u8
    ensures { result ≡ a }
{
    if a < 7 {
        return a;
    }
    let last = a;
    last
}
"""
ANSWERS = """use Rattle.std.proofs.Common.{◌≡◌, refl}
use Rattle.tiny.proofs.third.Goals as goal

pub returns-then-a-lt7 : goal.returns-then-a-lt7
returns-then-a-lt7 c = refl
"""
EDITS = {
    "wrong": ("let chosen = a;", "let chosen = b;"),
    "wrong-again": ("first(b, a)", "first(a, b)"),
    "harmless": ("let _ = b;", "let _ = a;"),
    "no-program": ("first(b, a);", "first(b, a;"),
    "new-name": ("if a < 7", "if a < 8"),
    "wrong-new-name": ("if a < 7", "if a < 8", "let last = a;", "let last = 0;"),
    "loop": ("let other = first(b, a);", "let other = first(b, a); let mut n = a; while n < 9 { n += 1; }"),
}


def write(path, text):
    os.makedirs(os.path.dirname(path), exist_ok=True)
    with open(path, "w", encoding="utf-8") as file:
        file.write(text)


class Proved(unittest.TestCase):
    def setUp(self):
        self.room = tempfile.mkdtemp(prefix="proved-")
        write(f"{self.room}/crates.txt", "tiny:\n")
        write(f"{self.room}/HANDLES", "Handles allowed: none.\n")
        write(f"{self.room}/crates/tiny/src/lib.rt", SOURCE)
        write(f"{self.room}/crates/tiny/proofs/third/Answers.antt", ANSWERS)
        shutil.copytree(f"{ROOT}/tests", f"{self.room}/tests")

    def tearDown(self):
        shutil.rmtree(self.room)

    def said(self, *names):
        """Returns what tests/wrong-edits reports for these edits."""
        text = ""
        for name in names:
            words = zip(("old", "new") * 2, EDITS[name])
            text += f"== {name}\nfile: src/lib.rt\n" + "".join(f"{word}: {it}\n" for word, it in words)
        write(f"{self.room}/crates/tiny/wrong-edits.txt", text)
        ran = subprocess.run(
            [f"{self.room}/tests/wrong-edits", "tiny"], stdin=subprocess.DEVNULL,
            stdout=subprocess.PIPE, stderr=subprocess.STDOUT, universal_newlines=True, check=False,
        )
        return ran.returncode, ran.stdout

    def test_edits_that_show_nothing(self):
        status, said = self.said("harmless", "new-name", "no-program", "loop")
        self.assertEqual(status, 1)
        self.assertIn("tiny: loop: SHOWS NOTHING", said)
        self.assertIn("tiny: harmless: NOT REFUSED", said)
        self.assertIn("tiny: new-name: NOT REFUSED", said)
        self.assertIn("tiny: no-program: NO PROGRAM", said)
        self.assertIn("0 refused, 0 at a limit, 4 wrong", said)

    def test_wrong_edits_of_a_function_and_its_callee(self):
        status, said = self.said("wrong", "wrong-again", "wrong-new-name")
        self.assertEqual(status, 0, said)
        self.assertIn("3 refused, 0 at a limit, 0 wrong", said)
