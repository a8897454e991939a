"""Tests tests/all with tests that do nothing, and an `rt ci` that prints prescribed output."""
import os
import re
import shutil
import subprocess
import tempfile
import threading
import time
import unittest

from gate import Gate, Test, named
from sources import read
from test_scripts import has_ended

ROOT = os.path.dirname(os.path.dirname(os.path.dirname(os.path.abspath(__file__))))
FAKE_RT = """#!/bin/sh
echo 'rt: low proved'
echo "$LAST"
exit "$STATUS"
"""
NAMES = "wrong-edits documents surface trust imports self refusals programs pictures scarce"
NAMES += " bindings targets portable packages readmes terminfo terminfo-programs"
LIBRARIES = """mkdir -p "$1/installed" "$1/compiled" "$1/wasm"
touch "$1/compiled/libvt100_c.a" "$1/compiled/vt100_c.bc"
"""


class All(unittest.TestCase):
    def setUp(self):
        self.room = tempfile.mkdtemp(prefix="all-")
        shutil.copytree(f"{ROOT}/tests/lib", f"{self.room}/tests/lib", ignore=shutil.ignore_patterns("__pycache__"))
        shutil.copy(f"{ROOT}/tests/all", f"{self.room}/tests")
        for name in ["bench/table", *[f"tests/{it}" for it in NAMES.split()]]:
            self.script(name, "exit 0")
        self.script("tests/libraries", LIBRARIES)
        self.script("bin/rt", FAKE_RT)

    def tearDown(self):
        shutil.rmtree(self.room)

    def script(self, name, text):
        os.makedirs(os.path.dirname(f"{self.room}/{name}"), exist_ok=True)
        with open(f"{self.room}/{name}", "w", encoding="utf-8") as file:
            file.write(text if text.startswith("#!") else f"#!/bin/sh\n{text}\n")
        os.chmod(f"{self.room}/{name}", 0o755)

    def output(self, last="7 passed, 0 failed", status="0", words=(), program="tests/all", **env):
        """Returns the status and the output of tests/all, or of another program."""
        path = f"{self.room}/bin:{os.environ['PATH']}"
        ran = subprocess.run(
            [f"{self.room}/{program}", *words],
            env={**os.environ, "CI": "", "PATH": path, "LAST": last, "STATUS": status, **env}, stdin=subprocess.DEVNULL,
            stdout=subprocess.PIPE, stderr=subprocess.STDOUT, universal_newlines=True, check=False,
        )
        return ran.returncode, ran.stdout

    def ran(self, *arguments, **options):
        """Returns the status and the last line of tests/all."""
        status, output = self.output(*arguments, **options)
        return status, output.rstrip("\n").rpartition("\n")[2]

    def test_all_is_counted(self):
        self.assertEqual(self.ran(), (0, "25 passed, 0 failed, 0 left out"))

    def test_a_failed_program_test(self):
        self.script("tests/pictures", "exit 1")
        self.assertEqual(self.ran(), (1, "24 passed, 1 failed, 0 left out"))

    def test_a_failed_test_beside_the_gate(self):
        self.script("tests/refusals", "sleep 0.1; exit 1")
        self.assertEqual(self.ran(), (1, "24 passed, 1 failed, 0 left out"))

    def test_a_failed_first_test(self):
        self.script("tests/trust", "exit 1")
        self.assertEqual(self.ran(), (1, "6 passed, 1 failed, 0 left out"))

    def test_a_failed_gate(self):
        status, last = self.ran("6 passed, 1 failed", "1")
        self.assertEqual((status, last), (1, "24 passed, 1 failed, 0 left out"))
        self.assertEqual(self.ran("", "2"), (2, "18 passed, 1 failed, 0 left out"))
        self.assertEqual(self.ran("7 passed, 0 failed", "2"), (2, "25 passed, 1 failed, 0 left out"))

    def test_a_library_that_is_not_built(self):
        self.script("tests/libraries", "exit 1")
        self.assertEqual(self.ran(), (1, "18 passed, 7 failed, 0 left out"))

    def test_what_is_left_out(self):
        self.script("tests/bindings", "echo 'left out: what needs mypy'; echo 'left out: no mc'")
        self.script("tests/packages", "echo 'left out: what needs mypy'")
        status, output = self.output()
        self.assertEqual(status, 0)
        counts = "25 passed, 0 failed, 2 left out\n"
        self.assertTrue(output.endswith(f"left out: what needs mypy\nleft out: no mc\n{counts}"), output)
        self.assertEqual(self.ran(words=["--complete"]), (1, counts.rstrip("\n")))

    def test_libraries_are_passed_on(self):
        self.script("tests/targets", 'echo "$# words: $*"')
        _, output = self.output()
        passed = r"^6 words: --library /.*/libvt100_c.a --module /.*/vt100_c.bc --wasm /.*/wasm$"
        self.assertRegex(output, re.compile(passed, re.M))

    def test_only_for_a_release(self):
        self.script("tests/terminfo-programs", "exit 1")
        self.assertEqual(self.ran(), (0, "25 passed, 0 failed, 0 left out"))
        self.assertEqual(self.ran(words=["--release"]), (1, "27 passed, 1 failed, 0 left out"))

    def test_times_are_shown(self):
        self.script("tests/scarce", "sleep 1.2")
        _, output = self.output()
        self.assertRegex(output, re.compile(r"^ +[12] +0  tests/scarce$", re.M))
        self.assertRegex(output, re.compile(r"^ +\d+ +\d+  rt ci$", re.M))
        self.assertRegex(output, re.compile(r"^ +\d+ +\d+  all$", re.M))

    def test_set_up_under_continuous_integration(self):
        self.script("tests/setup", "echo 'set up'; exit 1")
        self.assertNotIn("set up\n", self.output()[1])
        self.assertTrue(self.output(CI="true")[1].startswith("set up\n"))

    def test_debian_comes_first(self):
        self.script("bin/python3", f'case $1 in -c) exit 1 ;; *) exec {shutil.which("python3")} "$@" ;; esac')
        self.script("tests/bindings", "command -v dpkg && python3 -c ''")
        self.assertEqual(self.ran()[0], 0)

    def test_the_gate_sets_up_and_leaves_nothing_out(self):
        os.mkdir(f"{self.room}/.ci")
        shutil.copy(f"{ROOT}/.ci/run", f"{self.room}/.ci")
        self.script("tests/setup", "echo 'set up'")
        status, output = self.output(program=".ci/run")
        self.assertEqual((status, output.startswith("set up\n")), (0, True), output)
        self.script("tests/bindings", "echo 'left out: no mc'")
        self.assertEqual(self.output(program=".ci/run")[0], 1)


class Limits(unittest.TestCase):
    def test_a_deadlock_ends(self):
        begun = time.monotonic()
        gate = Gate(time.monotonic)
        self.assertFalse(gate.run(Test(["sh", "-c", "sleep 100 & sleep 100"], 0.5)))
        self.assertLess(time.monotonic() - begun, 50)
        self.assertEqual((gate.passed, gate.failed, gate.status), (0, 1, 1))

    def test_what_a_test_leaves_behind_is_not_waited_for(self):
        begun = time.monotonic()
        gate = Gate(time.monotonic)
        shown = []
        gate.measured(Test(["sh", "-c", "printf 'one\\ntwo'; setsid sleep 60 &"]), shown.append)
        self.assertEqual(shown, ["one\n", "two"])
        self.assertLess(time.monotonic() - begun, 50)

    def test_a_script_that_is_late_ends_its_jobs(self):
        with tempfile.TemporaryDirectory() as room:
            job = f"limited sh -c 'echo $$ >{room}/pid; exec sleep 100'"
            gate = Gate(time.monotonic)
            self.assertFalse(gate.run(Test(["bash", "-c", f"cd {ROOT} && . tests/lib/tests.bash && {job}"], 2)))
            self.assertTrue(has_ended(int(read(f"{room}/pid"))))

    def test_the_end_of_the_gate_ends_all_jobs(self):
        with tempfile.TemporaryDirectory() as room:
            job = f"limited sh -c 'echo $$ >{room}/pid; exec sleep 100'"
            gate = Gate(time.monotonic)
            test = Test(["bash", "-c", f"cd {ROOT} && . tests/lib/tests.bash && {job}"])
            beside = threading.Thread(target=gate.run, args=[test])
            beside.start()
            while not os.path.exists(f"{room}/pid") or not read(f"{room}/pid"):
                time.sleep(0.05)
            gate.end()
            beside.join(50)
            self.assertFalse(beside.is_alive())
            self.assertTrue(has_ended(int(read(f"{room}/pid"))))

    def test_a_missing_command_fails(self):
        gate = Gate(time.monotonic)
        self.assertFalse(gate.run(Test(["no-such-command"])))
        self.assertEqual(gate.failed, 1)

    def test_names(self):
        self.assertEqual(named(Test(["tests/targets", "--library", "/x", "--wasm", "/y"])), "tests/targets")
        self.assertEqual(named(Test(["tests/packages", "/x"])), "tests/packages")
        self.assertEqual(named(Test(["tests/wrong-edits", "--jobs", "4"])), "tests/wrong-edits --jobs 4")
