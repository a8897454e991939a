"""Tests of retarget.py: what it changes in a module, and what it refuses."""
import subprocess
import sys
import tempfile
import unittest
from pathlib import Path

SCRIPT = Path(__file__).resolve().parent.parent / "retarget.py"
MODULE = """\
target datalayout = "e-m:e-p270:32:32-i64:64-n8:16:32:64-S128"
target triple = "x86_64-unknown-linux-gnu"

define noundef i8 @vt100_kind(ptr noundef %a0) #0 {
start:
  %r0 = call { i64, i64 } @rattle_alloc(i64 1, i64 8)
  %r1 = call { i64, i64 } @rattle_realloc(ptr %a0, i64 1, i64 2, i64 8)
  call void @rattle_dealloc(ptr %a0)
  ret i8 0
}

define noundef i64 @vt100_copy(ptr noundef %a0) #0 {
start:
  %r0 = call noundef i8 @inner()
  ret i64 0
}

define internal noundef i8 @inner() #0 {
start:
  ret i8 0
}

declare { i64, i64 } @rattle_alloc(i64 noundef, i64 noundef) #1

declare void @rattle_dealloc(ptr noundef) #1

declare { i64, i64 } @rattle_realloc(ptr noundef, i64 noundef, i64 noundef, i64 noundef) #1

attributes #0 = { nounwind "probe-stack"="inline-asm" "target-cpu"="x86-64" }
attributes #1 = { nobuiltin nounwind }
"""


class Retarget(unittest.TestCase):
    def setUp(self):
        folder = tempfile.TemporaryDirectory()
        self.addCleanup(folder.cleanup)
        self.source, self.target = Path(folder.name) / "in.ll", Path(folder.name) / "out.ll"

    def run_script(self, how, text):
        self.source.write_text(text, encoding="utf-8")
        return subprocess.run([sys.executable, "-B", str(SCRIPT), how, str(self.source), str(self.target)], check=False,
                              stderr=subprocess.PIPE, universal_newlines=True)

    def retargeted(self, how):
        self.assertEqual(self.run_script(how, MODULE).stderr, "")
        return self.target.read_text(encoding="utf-8")

    def test_a_narrow_result_fills_its_register(self):
        text = self.retargeted("registers")
        self.assertIn("define noundef zeroext i8 @vt100_kind(ptr noundef %a0)", text)
        self.assertIn("define noundef i64 @vt100_copy(", text)
        self.assertIn("define internal noundef i8 @inner()", text)

    def test_no_target_is_left(self):
        text = self.retargeted("registers")
        for word in ("target datalayout", "target triple", "target-cpu", "probe-stack"):
            self.assertNotIn(word, text)

    def test_pairs_in_registers_stay(self):
        self.assertIn("%r0 = call { i64, i64 } @rattle_alloc(i64 1, i64 8)", self.retargeted("registers"))

    def test_pairs_in_memory(self):
        text = self.retargeted("memory")
        for name, arguments, parameters in (
                ("rattle_alloc", "i64 1, i64 8", "i64 %a0, i64 %a1"),
                ("rattle_realloc", "ptr %a0, i64 1, i64 2, i64 8", "ptr %a0, i64 %a1, i64 %a2, i64 %a3")):
            self.assertIn(f"= call {{ i64, i64 }} @{name}.pair({arguments})", text)
            self.assertIn(f"define internal {{ i64, i64 }} @{name}.pair({parameters})", text)
            self.assertIn(f"call void @{name}(ptr sret({{ i64, i64 }}) align 8 %result, {parameters})", text)
            self.assertNotIn(f"declare {{ i64, i64 }} @{name}(", text)
        self.assertIn("call void @rattle_dealloc(ptr %a0)", text)

    def test_what_depends_on_a_processor(self):
        for line in ('module asm "nop"', "declare void @llvm.x86.sse2.pause()"):
            with self.subTest(line):
                done = self.run_script("registers", MODULE + line + "\n")
                self.assertEqual(done.returncode, 1)
                self.assertIn("retarget: for one processor only: ", done.stderr)
                self.assertFalse(self.target.exists())

    def test_another_way_to_return(self):
        done = self.run_script("elsewhere", MODULE)
        self.assertEqual(done.returncode, 1)
        self.assertIn("no way to return two words is named elsewhere", done.stderr)
        self.assertFalse(self.target.exists())


if __name__ == "__main__":
    unittest.main()
