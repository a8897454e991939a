"""Tests how sources, imports, wrong edits and verdicts are read."""
import os
import tempfile
import unittest

import imports
import surface
import verdicts
import words
from edits import groups_of, in_file, in_must_fail, renamed
from sources import functions_in

SOURCE = """//! A crate.

ghost use Rattle.std.specs.Prelude.{◌≡◌, ◌<◌, length, IfOk};

impl<'a, CB: Callbacks> Parser<CB> {
    /// Returns a row.
    pub fn row(&self, at: u16) -> Option<&'a Row>
        requires inside { at < length self.now }
        ensures value { result ≡ row_of
            self.now }
        ensures* kept { self.new ≡ self.old }
    {
        self.rows.get(at)
    }
}

pub fn root() {
    one() == 1
}
"""
PROVED = "fn low::a: proved\n"
OPEN = "note: src/a.rt:4:1: it is not proved that it holds (`returns`)\n"
ANSWER = "./proofs/a/Answers.antt:3:1: error: `returns`: the two types first differ\n"
RENAMED = (
    "./proofs/a/Answers.antt:3:1: error: `r`: `goal.r`: module `Rattle.low.proofs.a.Goals` "
    "has no `returns-then-a-clause-r` that can be named from here\n"
)
FIELD = "./proofs/a/Answers.antt:3:1: error: `r`: record `Rattle.low.After` has no field `if-a` (nearest: .if-b)\n"
FALSE = OPEN.replace("\n", "; the facts known there allow values at which this goal is false\n")
LEMMA = "./proofs/Steps.antt:3:1: error: `step`: the two types first differ\n"
LEMMA_NAME = "./proofs/Steps.antt:3:1: error: `step`: record `Rattle.low.Laws` has no field `law`\n"
UNADMITTED = "./proofs/a/Answers.antt:3:1: error: `returns`: `step` was not admitted\n"
LIMIT = "note: src/a.rt:4:1: it is not proved that it holds (`returns`); `search` gave up at one of its limits\n"


class Sources(unittest.TestCase):
    def test_functions(self):
        row, root = functions_in("low/src/lib.rt", SOURCE)
        self.assertEqual(row.path(), "low::Parser::row")
        self.assertEqual(row.labels(), ["value", "kept"])
        self.assertEqual(row.clauses[1][2], "ensures value { result ≡ row_of self.now }")
        self.assertEqual(row.signature, "pub fn row(&self, at: u16) -> Option<&'a Row>")
        self.assertEqual((root.path(), root.signature), ("low::root", "pub fn root()"))

    def test_parameters(self):
        row, root = functions_in("low/src/lib.rt", SOURCE)
        self.assertEqual(surface.parameters(row), [("at", "u16")])
        self.assertEqual(surface.parameters(root), [])


class Words(unittest.TestCase):
    def found(self, path, text):
        return [(number, word) for number, word, _ in words.retired_in(path, text)]

    def test_comments(self):
        text = "/// It answers.\nlet answers = 1; // a row behind\n//! `lent`, left behind\n/// The same row\n"
        self.assertEqual(self.found("a.rt", text), [(1, "answers"), (2, "behind"), (4, "The same")])
        self.assertEqual(self.found("a.antt", "-- Rows lent\nlent = 1\n"), [(1, "lent")])

    def test_documents(self):
        text = "It calls nobody.\n```\nlent\n```\nThe same is done.\n"
        self.assertEqual(self.found("docs/A.md", text), [(1, "calls nobody")])

    def test_allowed(self):
        self.assertEqual(self.found("docs/SECURITY.md", "A terminal answers."), [])
        self.assertEqual(self.found("docs/MODEL.md", "A terminal answers."), [(1, "answers")])


class Imports(unittest.TestCase):
    def unused(self, text):
        with tempfile.TemporaryDirectory() as room:
            path = f"{room}/lib.rt"
            with open(path, "w", encoding="utf-8") as file:
                file.write(text)
            return [name for _, name in imports.unused(path)]

    def test_a_name_in_code_alone_is_unused(self):
        self.assertEqual(self.unused(SOURCE), ["IfOk"])
        self.assertEqual(self.unused(SOURCE.replace("◌<◌", "◌==◌")), ["◌==◌", "IfOk"])

    def test_an_import_serves_its_block(self):
        text = SOURCE.replace("{\n    /// R", "{\n    ghost use Rattle.low.specs.A.{row_of, other};\n\n    /// R")
        self.assertEqual(self.unused(text), ["IfOk", "other"])


class Verdicts(unittest.TestCase):
    def why(self, text):
        return verdicts.Verdict(1, text).functions[-1].why()

    def test_reasons(self):
        self.assertEqual(self.why(PROVED), verdicts.PROVED)
        self.assertEqual(self.why(OPEN + "fn low::a: no proof: expected answers"), verdicts.REFUSED)
        self.assertEqual(self.why(ANSWER + "fn low::a: not proved"), verdicts.REFUSED)
        self.assertEqual(self.why(FIELD + "fn low::a: not proved"), verdicts.NAMES_ONLY)
        self.assertEqual(self.why(RENAMED + OPEN + "fn low::a: not proved"), verdicts.NAMES_ONLY)
        self.assertEqual(self.why(RENAMED + OPEN + OPEN + "fn low::a: not proved"), verdicts.REFUSED)
        self.assertEqual(self.why(RENAMED + FALSE + "fn low::a: not proved"), verdicts.REFUSED)
        loop = "fn low::a: no proof: expected a measure in ./proofs/a/Invariants.antt"
        self.assertEqual(self.why(loop), verdicts.NO_INVARIANT)
        self.assertEqual(self.why("fn low::a: not proved"), verdicts.NO_GOAL)
        self.assertEqual(self.why(FIELD + OPEN + "fn low::a: not proved"), verdicts.REFUSED)
        self.assertEqual(self.why("fn low::a: could not tell: a limit was met"), verdicts.NOT_TOLD)

    def test_a_recursive_function(self):
        self.assertEqual(self.why(ANSWER.replace("proofs/a/", "proofs/+a/") + "fn low::a: not proved"), verdicts.REFUSED)

    def test_a_callee(self):
        words = "fn low::a: not proved; it calls `low::b`, which is not proved"
        self.assertEqual(self.why(words), verdicts.CALLEE_ONLY)
        self.assertEqual(self.why(ANSWER + words), verdicts.REFUSED)
        words = "fn low::a: no proof: the borrow checker's part in its proof is not made yet: a call of `low::b`"
        self.assertEqual(self.why(words), verdicts.CALLEE_ONLY)

    def test_renames(self):
        goals = "returns-then-a-clause-r", "returns-then-b-clause-r"
        proposal = "help: `Goals` has no `{}`; rattle asks for `{}`, `t`\n".format(*goals)
        verdict = verdicts.Verdict(1, RENAMED + FIELD + "fn low::a: not proved\n" + proposal)
        found = [*verdict.renames(verdict.functions[0])]
        self.assertEqual(found, [("a", *goals), ("a", "if-a", "if-b")])
        self.assertFalse(verdicts.is_renamed("blank_left", "blank_right"))
        self.assertFalse(verdicts.is_renamed("returns-then-a-clause-r", "returns-then-b-clause-s"))
        self.assertFalse(verdicts.is_renamed("returns-then-a", "returns"))
        self.assertEqual(renamed("c.if-a.true if-a-1 (if-a)", "if-a", "if-b"), "c.if-b.true if-a-1 (if-b)")

    def test_answers_count_only_with_their_own_names(self):
        text = ANSWER + "fn low::a: not proved"
        self.assertEqual(verdicts.Verdict(1, text, True).functions[0].why(), verdicts.NAMES_ONLY)
        text = OPEN + text
        self.assertEqual(verdicts.Verdict(1, text, True).functions[0].why(), verdicts.REFUSED)

    def test_a_limit(self):
        self.assertEqual(self.why(LIMIT + "fn low::a: not proved"), verdicts.AT_LIMIT)
        self.assertEqual(self.why(LIMIT + OPEN + "fn low::a: not proved"), verdicts.REFUSED)
        self.assertEqual(self.why(ANSWER + LIMIT + "fn low::a: not proved"), verdicts.REFUSED)
        self.assertEqual(self.why(RENAMED + LIMIT + OPEN + "fn low::a: not proved"), verdicts.AT_LIMIT)


class Edits(unittest.TestCase):
    def setUp(self):
        self.room = tempfile.TemporaryDirectory()
        self.write("src/lib.rt", SOURCE)

    def tearDown(self):
        self.room.cleanup()

    def write(self, path, text):
        path = f"{self.room.name}/{path}"
        os.makedirs(os.path.dirname(path), exist_ok=True)
        with open(path, "w", encoding="utf-8") as file:
            file.write(text)

    def edits(self, *olds):
        """Returns the edits of a file that has one for each text."""
        parts = [f"\n== {it}\nfile: src/lib.rt\nold: {it}\nnew: x\n" for it in olds]
        self.write("wrong-edits.txt", "# A comment.\n" + "".join(parts))
        return in_file(self.room.name)

    def test_fit(self):
        inside, twice, outside = self.edits("self.rows.get(at)", "self.now", "A crate")
        places = [(it.first, it.last) for it in inside.functions]
        self.assertEqual((inside.name, places), ("self.rows.get(at)", [(7, 14)]))
        self.assertEqual((twice.functions, outside.functions), ([], []))

    def test_forms(self):
        edit = "file: src/lib.rt\nold: one()\nnew:   two()\nold: two()\nnew:\n"
        self.write("must-fail/a.edit", edit)
        rest = f"== b\n# why\n{edit}\n== c\n{edit}nwe: x\n== d\n\n== e\nfile: src/a.rt\nold: a\nnew: b\n== f"
        self.write("wrong-edits.txt", edit + rest)
        (whole,) = in_must_fail(self.room.name)
        self.assertEqual((whole.name, whole.pairs), ("a", [("one()", "  two()"), ("two()", "")]))
        found = {it.name: bool(it.functions) for it in in_file(self.room.name)}
        self.assertEqual(found, {"": False, "b": True, "c": False, "d": False, "e": False, "f": False})

    def test_definitions(self):
        self.write("specs/Laws.antt", "law = one\nother = one\n")
        rest = "".join(f"== {it}\nfile: specs/Laws.antt\nold: {it}\nnew: x\n" for it in ("law", "other", "one"))
        self.write("wrong-edits.txt", f"== a\nfile: src/lib.rt\nold: one() == 1\nnew: x\n{rest}")
        body, law, other, twice = in_file(self.room.name)
        self.assertEqual([it.fits for it in (body, law, other, twice)], [True, True, True, False])
        self.assertEqual(groups_of([body, law, other]), [[body], [law], [other]])
        self.assertEqual([*law.paths()], [])
        refused = verdicts.Verdict(1, LEMMA + UNADMITTED + "fn low::a: not proved")
        self.assertEqual(verdicts.judge(refused, [law]), ({law: verdicts.REFUSED}, []))
        names = verdicts.Verdict(1, LEMMA_NAME + UNADMITTED + "fn low::a: not proved")
        self.assertEqual(verdicts.judge(names, [law]), ({law: verdicts.NAMES_ONLY}, []))
        self.assertEqual(verdicts.judge(verdicts.Verdict(0, PROVED), [law]), ({law: verdicts.PROVED}, []))

    def test_groups(self):
        edits = self.edits("self.rows", ".get(at)", "one() == 1")
        groups = [[it.name for it in group] for group in groups_of(edits)]
        self.assertEqual(groups, [["self.rows", "one() == 1"], [".get(at)"]])
        self.assertEqual([*edits[0].paths(), *edits[2].paths()], ["Parser::row", "root"])
