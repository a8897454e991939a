"""Tests what the scripts in tests/ share, with faults that they must report."""
import glob
import os
import re
import shutil
import subprocess
import sys
import tempfile
import time
import unittest

from sources import read

ROOT = os.path.dirname(os.path.dirname(os.path.dirname(os.path.abspath(__file__))))


def function(file, name):
    """Returns a function of a script."""
    return re.search(rf"^{name}\(\) [({{]\n.*?^[)}}]$", read(f"{ROOT}/{file}"), re.M | re.S)[0]


def has_ended(pid):
    """Returns whether a process ends within ten seconds. Nobody may have waited for it."""
    for _ in range(100):
        try:
            if read(f"/proc/{pid}/stat").rpartition(")")[2].split()[0] == "Z":
                return True
        except (FileNotFoundError, ProcessLookupError):
            return True
        time.sleep(0.1)
    return False


class Scripts(unittest.TestCase):
    def setUp(self):
        self.room = tempfile.mkdtemp(prefix="scripts-")

    def tearDown(self):
        shutil.rmtree(self.room)

    def write(self, name, text):
        path = f"{self.room}/{name}"
        os.makedirs(os.path.dirname(path), exist_ok=True)
        with open(path, "w", encoding="utf-8") as file:
            file.write(text)
        os.chmod(path, 0o755)
        return path

    def bash(self, script):
        """Returns the status and the output of a script that reads tests/lib/tests.bash."""
        os.makedirs(f"{self.room}/bin", exist_ok=True)
        text = f"set -u -o pipefail; . tests/lib/tests.bash; PATH={self.room}/bin:$PATH\n{script}"
        ran = subprocess.run(
            ["bash", "-c", text], cwd=ROOT, stdin=subprocess.DEVNULL, stdout=subprocess.PIPE, stderr=subprocess.STDOUT,
            universal_newlines=True, check=False,
        )
        return ran.returncode, ran.stdout


class Tries(Scripts):
    def test_counts(self):
        self.assertEqual(self.bash("try one true; try two true; close x"), (0, "x: 2 tests, 0 failed\n"))
        status, output = self.bash("try one true; try two ls /no/such; close x")
        self.assertEqual(status, 1)
        self.assertRegex(output, r"^failed: two\nls: [^\n]*\nx: 2 tests, 1 failed\n$")

    def test_no_test_at_all(self):
        self.assertEqual(self.bash("close x"), (1, "x: 0 tests, 0 failed\n"))

    def test_a_deadlock(self):
        begun = time.monotonic()
        status, output = self.bash(f"limit=1 try waits sh -c 'sleep 99 & echo $! >{self.room}/pid; wait'; close x")
        self.assertLess(time.monotonic() - begun, 50)
        self.assertEqual((status, output), (1, "failed: waits\nended after 1 s\nx: 1 tests, 1 failed\n"))
        self.assertTrue(has_ended(int(read(f"{self.room}/pid"))))

    def test_a_process_that_is_left(self):
        self.bash(f"try leaves sh -c 'sleep 99 & echo $! >{self.room}/pid'")
        self.assertTrue(has_ended(int(read(f"{self.room}/pid"))))

    def test_what_is_left_out(self):
        self.assertEqual(self.bash("has no-tool; has no-tool || echo no"), (0, "left out: what needs no-tool\nno\n"))
        said = "left out: what needs the Python package no_such_package\n"
        self.assertEqual(self.bash("has_module no_such_package || true"), (0, said))
        self.assertEqual(self.bash("try one echo left out: this; close x")[1], "left out: this\nx: 1 tests, 0 failed\n")

    def test_counts_of_a_script(self):
        script = self.write("script", "#!/bin/sh\necho 'other: 5 tests, 2 failed'; exit 1\n")
        self.assertEqual(self.bash(f"run_script {script}; close x")[1].split("\n")[1], "x: 5 tests, 2 failed")
        script = self.write("script", "#!/bin/sh\nexit 139\n")
        self.assertEqual(self.bash(f"run_script {script}; close x"), (1, "x: 1 tests, 1 failed\n"))


class LeftOut(unittest.TestCase):
    def test_all_that_is_left_out_is_counted(self):
        """tests/all counts lines that begin like this."""
        said = re.compile(r"(?:echo|print\(f?|printf) ?[\"'](.*left out.*)")
        folders = [f"{ROOT}/{it}" for it in ("tests", "tests/lib", "bindings/js/view/tests")]
        paths = [f"{folder}/{name}" for folder in folders for name in os.listdir(folder) if not name.startswith("test_")]
        found = [text for path in paths if os.path.isfile(path) for text in said.findall(read(path))]
        self.assertGreater(len(found), 5)
        self.assertEqual([text for text in found if not text.startswith("left out: ")], [])


class SetUp(unittest.TestCase):
    # Those that are in the package of another one, or in every system.
    OTHERS = {"infocmp", "tput", "objdump", "dpkg", "locale", "setpriv"}

    def texts(self, *patterns):
        """Yields the files whose paths are like a pattern."""
        for path in sorted(it for pattern in patterns for it in glob.glob(f"{ROOT}/{pattern}")):
            if os.path.isfile(path):
                yield path, read(path)

    def named_in_python(self):
        for _, text in self.texts("*/tests/*.py", "bindings/python/*/*.py"):
            for words in re.findall(r"(?:which|@has|@needs)\(([^()]*)\)", text):
                yield from map(os.path.basename, re.findall(r'"([^"]+)"', words))

    def named_in_bash(self):
        for path, text in self.texts("tests/*", "tests/lib/*.bash"):
            if path.endswith(".bash") or text.startswith("#!/usr/bin/env bash\n"):
                for words in re.findall(r"^(?:if |  +|has \w+ && )*has((?: [a-z][\w+-]*)+)", text, re.M):
                    yield from words.split()

    def test_it_installs_what_tests_need(self):
        tools = read(f"{ROOT}/tests/setup").partition("\ntools=(\n")[2].partition("\n)\n")[0]
        installed = {pair.partition(":")[0] for pair in tools.split()}
        for named in (set(self.named_in_python()), set(self.named_in_bash())):
            self.assertGreater(len(named), 10)
            self.assertEqual(named - installed - self.OTHERS, set())


class Node(Scripts):
    def counted(self, text, limit=1800):
        """Returns the status and the last line after tests of a node that runs a script."""
        self.write("bin/node", f"#!/bin/sh\n{text}\n")
        status, output = self.bash(f"limit={limit} test_in_node JavaScript x.test.js; close x")
        return status, output.rstrip("\n").rpartition("\n")[2]

    def test_counts(self):
        self.assertEqual(self.counted("echo '# pass 2'; echo '# fail 0'"), (0, "x: 2 tests, 0 failed"))
        self.assertEqual(self.counted("echo '# pass 2'; echo '# fail 1'; exit 1"), (1, "x: 3 tests, 1 failed"))

    def test_a_crash(self):
        self.assertEqual(self.counted("exit 139"), (1, "x: 1 tests, 1 failed"))
        self.assertEqual(self.counted("echo '# pass 2'; echo '# fail 0'; kill -9 $$"), (1, "x: 3 tests, 1 failed"))

    def test_a_deadlock(self):
        self.assertEqual(self.counted("sleep 99", 1), (1, "x: 1 tests, 1 failed"))

    def test_a_different_reporter(self):
        self.assertEqual(self.counted("echo 'ℹ pass 2'; echo 'ℹ fail 0'"), (1, "x: 1 tests, 1 failed"))

    def test_a_cancelled_test(self):
        said = "echo '# pass 2'; echo '# fail 0'; echo '# cancelled 1'; exit 1"
        self.assertEqual(self.counted(said), (1, "x: 3 tests, 1 failed"))

    def test_no_test(self):
        self.assertEqual(self.counted("echo '# pass 0'; echo '# fail 0'"), (1, "x: 1 tests, 1 failed"))

    @unittest.skipUnless(shutil.which("node"), "there is no node")
    def test_a_promise_without_an_end(self):
        file = self.write("waits.test.mjs", "await new Promise(() => {});\n")
        status, output = self.bash(f"test_in_node JavaScript {file}; close x")
        self.assertEqual((status, output.rstrip("\n").rpartition("\n")[2][-8:]), (1, "1 failed"), output)


FAKE_APT = """#!/bin/sh
echo "$*" >>{room}/called
case $* in
  *indextargets*) [ ! -e {room}/lists ] || echo ORIGIN ;;
  *update) touch {room}/lists ;;
  *) exit 1 ;;
esac
"""


class Setup(Scripts):
    """Runs tests/setup with an apt-get that only notes how it is called, and with an empty cache."""

    def called(self):
        self.write("bin/apt-get", FAKE_APT.format(room=self.room))
        self.write("bin/sudo", '#!/bin/sh\n[ "$1" != -n ] || shift\nexec "$@"\n')
        env = {**os.environ, "PATH": f"{self.room}/bin:{os.environ['PATH']}", "XDG_CACHE_HOME": f"{self.room}/cache",
               "VT100_AARCH64_ROOT": f"{self.room}/arm"}
        ran = subprocess.run([f"{ROOT}/tests/setup"], env=env, stdin=subprocess.DEVNULL, stdout=subprocess.PIPE,
                             stderr=subprocess.STDOUT, universal_newlines=True, check=False)
        self.assertEqual(ran.returncode, 1, ran.stdout)
        self.assertIn(f"setup: no aarch64 system in {self.room}/arm", ran.stdout)
        return read(f"{self.room}/called").splitlines()

    def is_up_to_date(self, calls):
        """Returns whether the lists of packages are renewed before anything is downloaded."""
        words = [next((word for word in ("Architecture=arm64", "download", "update") if word in call), "") for call in calls]
        return "update" in words and words.index("update") < words.index("Architecture=arm64")

    def test_a_system_without_lists_of_packages(self):
        self.assertTrue(self.is_up_to_date(self.called()))

    def test_a_system_with_lists_of_packages(self):
        self.write("lists", "")
        calls = self.called()
        self.assertEqual(self.is_up_to_date(calls), any(" install " in call for call in calls if "arm64" not in call))


class Packages(Scripts):
    def test_no_programs(self):
        for name in ("run_tools", "describe_tools"):
            text = f"{function('tests/packages', name)}\ntools=\nversion=1\n{name} .\n"
            self.assertEqual(self.bash(text)[0], 1, name)

    def test_programs_that_are_not_built(self):
        self.assertIn("leave_out", read(f"{ROOT}/tests/packages").partition("\ntools=\n")[2].partition("\ndone\n")[0])

    def test_an_option_that_is_not_given(self):
        text = f"given=/\nmissing=\n{function('tests/packages', 'is_given')}\nis_given given && ! is_given missing"
        self.assertEqual(self.bash(text), (0, "left out: packages that need the option --missing\n"))

    def wheel_shares(self, wasm, status, said):
        """Returns the status of the test of a vt100-share that ends with a status, having written a line."""
        self.write("environment/bin/vt100-share", f"#!/bin/sh\necho '{said}'\nexit {status}\n")
        return self.bash(f"cd {self.room}; wasm={wasm}\n{function('tests/lib/python_packages.bash', 'shares')}\nshares")[0]

    def test_a_program_that_needs_more(self):
        self.assertEqual(self.wheel_shares("x", 0, "watch: http://127.0.0.1:1/"), 0)
        self.assertEqual(self.wheel_shares("x", 2, "vt100-share: websockets is required"), 1)
        self.assertEqual(self.wheel_shares("", 2, "the page has no module"), 0)
        self.assertEqual(self.wheel_shares("", 2, "vt100-share: websockets is required"), 1)


@unittest.skipIf(shutil.which("rt", path="/usr/bin:/bin"), "the kit is among the system's commands")
class WithoutKit(Scripts):
    def test_the_command_is_missed_in_one_line(self):
        for name in ("build", "compile", "package"):
            ran = subprocess.run(
                [f"{ROOT}/bindings/{name}", f"{self.room}/out"], env={"PATH": "/usr/bin:/bin"}, stdin=subprocess.DEVNULL,
                stdout=subprocess.PIPE, stderr=subprocess.STDOUT, universal_newlines=True, check=False,
            )
            self.assertEqual(ran.returncode, 1)
            self.assertRegex(ran.stdout, rf"^{name}: the command rt of the Rattle kit is not in PATH[^\n]*\n\Z")
            self.assertFalse(os.path.exists(f"{self.room}/out"))


class Emulated(Scripts):
    def test_all_tests_of_the_package_run(self):
        self.write("bin/qemu-aarch64", "#!/bin/sh\nshift 3\necho \"$@\"\n")
        self.write("usr/bin/python3.11", "")
        functions = [function("tests/targets", name) for name in ("write_script", "python_on_arm")]
        text = "\n".join([f"arm_root={self.room}\ninstalled={self.room}", *functions, "python_on_arm"])
        words = r"tests/lib/units\.py --executable /[^ ]*/python-on-arm bindings/python/tests\n"
        status, output = self.bash(text)
        self.assertEqual(status, 0, output)
        self.assertRegex(output, rf"^{words}\Z")


class Native(Scripts):
    def test_libraries_that_were_not_built(self):
        os.makedirs(f"{self.room}/native/riscv64-linux")
        text = f"native={self.room}/native\non_target() {{ echo \"on $1\"; }}\n{function('tests/targets', 'in_native')}\nin_native"
        missing = [f"left out: the library for {name}, which was not built\n"
                   for name in ("x86_64-windows", "x86_64-macos", "aarch64-macos")]
        self.assertEqual(self.bash(text), (0, f"{missing[0]}on riscv64-linux\n{missing[1]}{missing[2]}"))


class Units(Scripts):
    def ran(self, tests, limit=1800):
        """Returns the status and the output of tests in a file."""
        self.write("test_some.py", f"import time\nimport unittest\n\n\nclass Some(unittest.TestCase):\n{tests}")
        code = f"import units\nunits.LIMIT = {limit}\nraise SystemExit(units.run({self.room!r}, ['test_*.py'], 'some'))"
        ran = subprocess.run(
            [sys.executable, "-B", "-c", code], env={**os.environ, "PYTHONPATH": f"{ROOT}/tests/lib:{self.room}"},
            stdout=subprocess.PIPE, stderr=subprocess.STDOUT, universal_newlines=True, check=False,
        )
        return ran.returncode, ran.stdout

    def test_passed(self):
        status, output = self.ran("    def test_one(self):\n        pass\n")
        self.assertEqual((status, output[-23:]), (0, "some: 1 tests, 0 failed\n"[-23:]))

    def test_failed(self):
        status, output = self.ran("    def test_one(self):\n        self.fail()\n")
        self.assertEqual((status, output[-23:]), (1, "some: 1 tests, 1 failed\n"[-23:]))

    def test_a_deadlock(self):
        status, output = self.ran("    def test_that_waits(self):\n        time.sleep(99)\n", 1)
        self.assertEqual(status, 1)
        self.assertIn("test_that_waits", output)

    def test_skipped(self):
        skip = "    @unittest.skip('there is no moon')\n    def test_{}(self):\n        pass\n"
        status, output = self.ran(skip.format(1) + skip.format(2))
        self.assertEqual(status, 1)
        self.assertIn("\nleft out: there is no moon (2 tests in Python)\n", output)
        self.assertEqual(self.ran(skip.format(1) + "    def test_2(self):\n        pass\n")[0], 0)

    def test_no_file(self):
        words = [sys.executable, "-B", f"{ROOT}/tests/lib/units.py", self.room]
        ran = subprocess.run(words, stderr=subprocess.PIPE, universal_newlines=True, check=False)
        self.assertEqual((ran.returncode, "no file is like" in ran.stderr), (1, True), ran.stderr)
