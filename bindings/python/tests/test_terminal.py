"""Tests of what `vt100.testing.Terminal` does besides keys and waits."""

import functools
import gc
import importlib.util
import operator
import os
import pickle
import re
import resource
import shutil
import sys
import time
import unittest
import warnings

import vt100
from vt100 import testing
from vt100.testing import WaitFailed, diff

from patient import Terminal

PYTHON = [sys.executable, "-S", "-u", "-c"]

# Sends a query, and prints the reply that it reads.
ASK = """
import os, sys, tty
tty.setraw(0)
for query in sys.argv[1:]:
    os.write(1, query.encode().decode("unicode_escape").encode())
    reply = b""
    while not reply.endswith((b"c", b"R", b"n", b"\\\\")):
        reply += os.read(0, 1)
    os.write(1, repr(reply).encode() + b"\\r\\n")
"""


def is_running(process):
    try:
        with open("/proc/%d/stat" % process) as file:
            return file.read().rpartition(")")[2].split()[0] not in "ZX"
    except OSError:
        return False


class Terminfo(unittest.TestCase):
    CODE = "import os; print(os.environ['TERM'], os.environ.get('TERMINFO'))"

    def test_programs_get_the_entry_of_this_terminal(self):
        if testing.terminfo.entry()[0] != "caldrosk-256color":
            self.skipTest("no compiled entry, and no tic")
        if shutil.which("tput") is None:
            self.skipTest("no tput")
        with Terminal("sh -c 'echo $TERM; tput U8; tput acsc || echo none'") as terminal:
            self.assertEqual(terminal.wait_end(), 0)
            self.assertEqual(terminal.screen.contents(), "caldrosk-256color\n1\nnone")

    def test_another_one_is_chosen(self):
        with Terminal([*PYTHON, self.CODE], term="dumb", env={"TERMINFO": "/mine"}) as terminal:
            terminal.wait_end()
            self.assertEqual(terminal.screen.contents(), "dumb /mine")
        for term, wanted in ((None, "linux /mine"), ("dumb", "dumb /mine")):
            env = {"TERM": "linux", "TERMINFO": "/mine"}
            with Terminal([*PYTHON, self.CODE], term=term, env=env) as terminal:
                terminal.wait_end()
                self.assertEqual(terminal.screen.contents(), wanted)


class Commands(unittest.TestCase):
    def test_a_string_is_split(self):
        with Terminal("printf '%s|' one 'two words' \"3\"") as terminal:
            terminal.wait_end()
            self.assertEqual(terminal.screen.contents(), "one|two words|3|")

    def test_a_missing_program_is_named(self):
        for command in ("no_such_program -x", ["no_such_program", "-x"]):
            with self.assertRaisesRegex(FileNotFoundError, "no such program: 'no_such_program'"):
                Terminal(command)
        with self.assertRaisesRegex(FileNotFoundError, "/no/such/folder"):
            Terminal("true", cwd="/no/such/folder")
        for command in ("", []):
            with self.assertRaisesRegex(ValueError, "empty"):
                Terminal(command)


class Replies(unittest.TestCase):
    def test_queries_are_answered(self):
        with Terminal([*PYTHON, ASK, r"\x1b[c", r"\x1b[6n", r"\x1b]11;?\x07"], replies=True) as terminal:
            self.assertEqual(terminal.wait_end(), 0)
            self.assertEqual(
                terminal.screen.rows()[:3],
                [
                    r"b'\x1b[?1;2c'",
                    r"b'\x1b[2;1R'",
                    r"b'\x1b]11;rgb:0000/0000/0000\x1b\\'",
                ],
            )

    def test_replies_beside_callbacks(self):
        class Titles(vt100.Callbacks):
            title = b""

            def set_window_title(self, screen, title):
                self.title = title

        titles = Titles()
        command = [*PYTHON, ASK, r"\x1b]2;t\x07\x1b[5n"]
        with Terminal(command, callbacks=titles, replies=True) as terminal:
            self.assertEqual(terminal.wait_end(), 0)
            self.assertEqual((titles.title, terminal.screen.rows()[0]), (b"t", r"b'\x1b[0n'"))

    def test_a_callback_sends(self):
        class Sending(vt100.Callbacks):
            def unhandled_csi(self, screen, first, second, params, final):
                self.terminal.send("\x1b[%dn" % len(params))
                self.terminal.press("n")

        sending = Sending()
        with Terminal([*PYTHON, ASK, r"\x1b[7;8n"], callbacks=sending) as terminal:
            sending.terminal = terminal
            self.assertEqual(terminal.wait_end(), 0)
            self.assertEqual(terminal.screen.rows()[0], r"b'\x1b[2n'")


class Waits(unittest.TestCase):
    def test_patterns(self):
        with Terminal([*PYTHON, "print('user 12')"]) as terminal:
            self.assertEqual(terminal.wait_for(re.compile(r"\d+")).contents(), "user 12")
            with self.assertRaisesRegex(WaitFailed, r"waiting for a match of '\\\\d\{3\}': the program"):
                terminal.wait_for(re.compile(r"\d{3}"))
            for wrong in (b"user", 3, None):
                with self.assertRaisesRegex(TypeError, "what to wait for"):
                    terminal.wait_for(wrong)

    def test_a_failure_names_the_line_of_a_lambda(self):
        with Terminal([*PYTHON, "import time; print('x'); time.sleep(100)"]) as terminal:
            terminal.wait_for("x")
            with self.assertRaises(WaitFailed) as failed:
                terminal.wait_for(lambda screen: "never" in screen.contents(), timeout=0.25)
        message = str(failed.exception)
        self.assertRegex(message, r"test_terminal.py, line \d+\), .*\"never\" in screen.contents\(\)")
        self.assertIn("not done within 0.25 seconds\nscreen of 24x80", message)

    def test_a_failure_names_an_object_that_is_called(self):
        with Terminal([*PYTHON, "print('only')"]) as terminal:
            with self.assertRaisesRegex(WaitFailed, r"waiting for functools.partial\(.*: the program has ended"):
                terminal.wait_for(functools.partial(operator.eq, None))

    def test_quiet(self):
        code = "import time\nfor n in range(5): print(n); time.sleep(0.1)\ntime.sleep(100)"
        with Terminal([*PYTHON, code]) as terminal:
            screen = terminal.wait_quiet(3.0)
            self.assertEqual(screen.contents(), "0\n1\n2\n3\n4")
        with Terminal([*PYTHON, "while True: print('y')"]) as terminal:
            terminal.wait_for("y")
            with self.assertRaisesRegex(WaitFailed, "waiting for 2 seconds without output: not"):
                terminal.wait_quiet(2, timeout=3)

    def test_a_failure_is_pickled(self):
        with Terminal([*PYTHON, "print('only')"], 2, 8) as terminal:
            with self.assertRaises(WaitFailed) as failed:
                terminal.wait_for("never")
        other = pickle.loads(pickle.dumps(failed.exception))
        self.assertEqual(str(other), str(failed.exception))
        self.assertEqual((other.text, other.screen), (failed.exception.text, None))
        self.assertIn("|only    |", other.text)


class Input(unittest.TestCase):
    def echo(self, modes):
        code = "import os, tty\ntty.setraw(0)\nos.write(1, %r)\n" % (modes + b"ready")
        code += "while True: os.write(1, b'\\r\\n' + repr(os.read(0, 100)).encode())"
        terminal = Terminal([*PYTHON, code], 6, 40)
        self.addCleanup(terminal.close)
        terminal.wait_for("ready")
        return terminal

    def test_the_mouse(self):
        terminal = self.echo(b"\x1b[?1000h\x1b[?1006h")
        terminal.click(2, 4)
        terminal.wait_for(r"\x1b[<0;5;3M")
        terminal.wait_for(r"\x1b[<0;5;3m")
        terminal.click(0, 0, "wheel_up")
        terminal.wait_for(r"\x1b[<64;1;1M")
        terminal.press("x")  # the next input: a wheel is not released
        terminal.wait_for("b'x'")
        self.assertNotIn(r"\x1b[<64;1;1m", terminal.screen.contents())
        with self.assertRaisesRegex(ValueError, "not requested"):
            terminal.mouse("move", 0, 0)
        with self.assertRaisesRegex(ValueError, "row 6, column 0 is not on a screen of 6x40"):
            terminal.click(6, 0)

    def test_modified_keys(self):
        terminal = self.echo(b"")
        terminal.press("ctrl-shift-up")
        terminal.wait_for(r"\x1b[1;6A")
        terminal.press("alt-x")
        terminal.wait_for(r"b'\x1bx'")

    def test_pasted_text(self):
        terminal = self.echo(b"\x1b[?2004h")
        terminal.paste("a\n\x1b\x03b")
        terminal.wait_for(r"\x1b[200~a\rb\x1b[201~")
        terminal.paste("c\r\nd\re")
        terminal.wait_for(r"\x1b[200~c\rd\re\x1b[201~")


class Ends(unittest.TestCase):
    def test_a_program_that_closes_its_terminal(self):
        command = ["sh", "-c", "trap '' HUP; echo bye; exec sleep 100 <&- >&- 2>&-"]
        with Terminal(command, 2, 10) as terminal:
            terminal.wait_for("bye", timeout=60)
            for wait in (lambda: terminal.wait_for("more"), lambda: terminal.wait_end(0.3)):
                with self.assertRaisesRegex(WaitFailed, "the program has closed the terminal(.|\n)*bye"):
                    wait()
            self.assertIsNone(terminal.status)

    def test_calls_after_close(self):
        with Terminal("true") as terminal:
            terminal.wait_end()
        self.assertEqual(terminal.status, 0)
        terminal.close()
        for call in (
            lambda: terminal.send("x"),
            lambda: terminal.press("x"),
            lambda: terminal.resize(3, 4),
            lambda: terminal.wait_for("x"),
            lambda: terminal.wait_quiet(),
            lambda: terminal.wait_end(),
        ):
            with self.assertRaisesRegex(ValueError, "the terminal is closed"):
                call()

    def test_a_terminal_that_is_never_closed(self):
        before = len(os.listdir("/proc/self/fd"))
        with warnings.catch_warnings(record=True) as caught:
            warnings.simplefilter("always")
            terminal = Terminal("sleep 100", replies=True)
            program = terminal._program
            del terminal
            gc.collect()
        self.assertEqual([one.category for one in caught], [ResourceWarning])
        self.assertIn("was not closed", str(caught[0].message))
        self.assertIsNotNone(program.status)
        self.assertEqual(len(os.listdir("/proc/self/fd")), before)

    @unittest.skipUnless(os.path.isdir("/proc/self"), "no /proc")
    def test_a_grandchild_that_ignores_the_hang_up(self):
        code = "trap '' HUP; sleep 1000 & echo pid $! .; wait"
        for options in ("", "set -m;"):  # with job control, in a process group of its own
            with Terminal(["bash", "-c", options + code]) as terminal:
                screen = terminal.wait_for(re.compile(r"pid \d+ \."))
                process = int(screen.contents().split("pid ")[1].split()[0])
                self.assertTrue(is_running(process))
            for _ in range(100):
                if not is_running(process):
                    break
                time.sleep(0.05)
            self.assertFalse(is_running(process))

    def test_descriptors_above_1023(self):
        limit, most = resource.getrlimit(resource.RLIMIT_NOFILE)
        if most != resource.RLIM_INFINITY and most < 1200:
            self.skipTest("too few descriptors")
        resource.setrlimit(resource.RLIMIT_NOFILE, (max(limit, 1200), most))
        opened = [os.open(os.devnull, os.O_RDONLY) for _ in range(1050)]
        try:
            with Terminal("cat") as terminal:
                self.assertGreater(terminal.fileno(), 1023)
                terminal.send("hello\n")
                terminal.wait_for("hello\nhello")
        finally:
            for file in opened:
                os.close(file)
            resource.setrlimit(resource.RLIMIT_NOFILE, (limit, most))


class Differences(unittest.TestCase):
    def screens(self, one, other, size=(3, 10), second=None):
        parsers = vt100.Parser(*size), vt100.Parser(*(second or size))
        for parser, text in zip(parsers, (one, other)):
            parser.feed(text)
        return parsers

    def test_equal_screens(self):
        self.assertEqual(diff(*self.screens("a", "a")), "")

    def test_each_difference(self):
        for one, other, said in (
            ("ab", "ac", "row 0:\n  left:  'ab'\n  right: 'ac'"),
            ("a\x1b[31mb\x1b[m", "ab", "row 0, column 1: Cell('b', fgcolor=1) != Cell('b')"),
            ("a", "a\x1b[H", "cursor: (0, 1) != (0, 0)"),
            ("a\x1b[?1h", "a", "application_cursor: True != False"),
            ("a ", "a\x1b[C", "row 0, column 1: Cell(' ') != Cell('')"),
            ("1234567890\x1b[H", "12345678901\x1b[2;1H\x1b[K\x1b[H", "row 0: only the right one is wrapped"),
        ):
            left, right = self.screens(one, other)
            self.assertNotEqual(left, right)
            self.assertEqual(diff(left, right), said)
        left, right = self.screens("".join(f"\x1b[{row}H{row}" for row in range(1, 41)), "", (40, 5))
        lines = diff(left, right).split("\n")
        rows = [line for line in lines if line.startswith("row ")]
        self.assertEqual((rows[-1], lines[-1]), ("row 19:", "and more rows"))
        left, right = self.screens("", "", (3, 10), (2, 9))
        self.assertRegex(diff(left, right), r"^size: \(3, 10\) != \(2, 9\)")

    @unittest.skipIf(importlib.util.find_spec("pytest") is None, "no pytest")
    def test_the_plugin_of_pytest(self):
        import vt100_pytest

        left, right = self.screens("ab", "ac")
        compare = vt100_pytest.pytest_assertrepr_compare
        lines = ["the screens differ:", "cursor: (0, 2) != (0, 1)"]
        right.feed("\x1b[D")
        self.assertEqual(compare("==", left, right)[:2], lines)
        self.assertIsNone(compare("!=", left, right))
        self.assertIsNone(compare("==", left, "text"))


if __name__ == "__main__":
    unittest.main()
