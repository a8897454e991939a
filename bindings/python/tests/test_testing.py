"""Tests of vt100.testing, which runs programs in a terminal."""

import os
import shutil
import signal
import sys
import time
import unittest
from unittest import mock

import vt100
from vt100.testing import KEYS, WaitFailed, framed

from patient import Terminal

PYTHON = [sys.executable, "-S", "-u", "-c"]

# Prints what it reads, byte by byte, without echo and line editing.
ECHO = """
import os, sys, tty
tty.setraw(0)
print(end="ready")
while True:
    data = os.read(0, 100)
    if data == b"q": break
    os.write(1, b"\\r\\n" + repr(data)[2:-1].encode())
"""


class Programs(unittest.TestCase):
    def test_a_program_has_a_terminal_of_the_size(self):
        code = "import os; print(*os.get_terminal_size(), os.environ['TERM'], os.isatty(0))"
        with Terminal([*PYTHON, code], 7, 33, term="vt100") as terminal:
            self.assertEqual(terminal.wait_end(), 0)
            self.assertEqual((terminal.screen.size, terminal.screen.scrollback_capacity), ((7, 33), 0))
            self.assertEqual(terminal.screen.contents(), "33 7 vt100 True")

    def test_a_program_writes_with_colors(self):
        command = ["printf", r"\033[2J\033[2;3Hhello \033[1;32mgreen\033[m\n"]
        with Terminal(command, rows=5, cols=30) as terminal:
            terminal.wait_end()
            screen = terminal.screen
        with Terminal(command, rows=5, cols=30) as terminal:
            screen = terminal.wait_for("green")
            self.assertEqual(screen.rows(), ["", "  hello green", "", "", ""])
            self.assertEqual(screen.cell(1, 8), vt100.Cell("g", fgcolor=2, bold=True))
            self.assertEqual(screen.cell(1, 2), vt100.Cell("h"))
            self.assertIsNone(screen.cell(5, 0))

    def seen(self, names, **more):
        """Returns the values of variables in the environment of a program."""
        code = f"import os; print(*[os.environ.get(name) for name in {names!r}])"
        with Terminal([*PYTHON, code], **more) as terminal:
            self.assertEqual(terminal.wait_end(), 0)
            return terminal.screen.contents().split()

    def test_the_folder(self):
        with Terminal([*PYTHON, "import os; print(os.getcwd())"], cwd="/") as terminal:
            terminal.wait_end()
            self.assertEqual(terminal.screen.contents(), "/")

    def test_the_environment_is_that_of_the_caller_with_changes(self):
        names = ["ONE", "TWO", "THREE", "PATH"]
        with mock.patch.dict(os.environ, {"ONE": "1", "TWO": "2", "PATH": "/usr/bin:/bin"}):
            self.assertEqual(self.seen(names), ["1", "2", "None", "/usr/bin:/bin"])
            self.assertEqual(
                self.seen(names, env={"ONE": "one", "TWO": None, "THREE": "3"}),
                ["one", "None", "3", "/usr/bin:/bin"],
            )

    def test_the_size_of_the_caller_is_not_passed_on(self):
        names = ["LINES", "COLUMNS"]
        with mock.patch.dict(os.environ, {"LINES": "7", "COLUMNS": "13"}):
            self.assertEqual(self.seen(names), ["None", "None"])
            self.assertEqual(self.seen(names, env={}), ["None", "None"])
            self.assertEqual(self.seen(names, env={"COLUMNS": "99"}), ["None", "99"])

    def locale(self, command, **given):
        """Returns what a shell command prints with these variables of the locale."""
        env = {"LC_ALL": None, "LC_CTYPE": None, "LANG": None, **given}
        with Terminal(["sh", "-c", command], env=env) as terminal:
            self.assertEqual(terminal.wait_end(), 0)
            return terminal.screen.contents()

    def test_the_encoding_is_utf8_unless_a_locale_is_chosen(self):
        for given, wanted in (
            ({}, "||C.UTF-8"),
            ({"LANG": ""}, "||C.UTF-8"),
            ({"LANG": "C"}, "|C|"),
            ({"LC_CTYPE": "de_DE"}, "||de_DE"),
            ({"LC_ALL": "POSIX"}, "POSIX||"),
        ):
            self.assertEqual(self.locale('echo "$LC_ALL|$LANG|$LC_CTYPE"', **given), wanted)
        if shutil.which("locale"):
            self.assertEqual(self.locale("locale charmap"), "UTF-8")

    def test_a_program_that_does_not_exist(self):
        with self.assertRaises(FileNotFoundError):
            Terminal(["/no/such/program"])

    def test_exit_statuses(self):
        for code, status in (
            ("import sys; sys.exit(3)", 3),
            ("import os; os.kill(os.getpid(), 9)", -signal.SIGKILL),
        ):
            with Terminal([*PYTHON, code]) as terminal:
                self.assertEqual(terminal.wait_end(), status)

    def test_the_program_is_ended(self):
        code = "import signal, time\nsignal.signal(signal.SIGHUP, signal.SIG_IGN)\n"
        code += "print(end='ready')\ntime.sleep(1000)"
        with Terminal([*PYTHON, code]) as terminal:
            terminal.wait_for("ready")
        self.assertEqual(terminal.status, -signal.SIGKILL)
        terminal.close()

    def test_callbacks_and_scrollback(self):
        class Titles(vt100.Callbacks):
            title = b""

            def set_window_title(self, screen, title):
                self.title = title

        titles = Titles()
        command = ["printf", r"\033]2;a title\a1\n2\n3\n4"]
        with Terminal(command, 2, 10, scrollback=5, callbacks=titles) as terminal:
            terminal.wait_end()
            self.assertEqual((titles.title, terminal.screen.scrollback_len), (b"a title", 2))


class Keys(unittest.TestCase):
    def echo(self):
        terminal = Terminal([*PYTHON, ECHO], 6, 40)
        self.addCleanup(terminal.close)
        terminal.wait_for("ready")
        return terminal

    def assert_sends(self, terminal, keys, text):
        terminal.press(*keys)
        terminal.wait_for(lambda screen: screen.contents().endswith("\n" + text))

    def test_keys_send_what_xterm_sends(self):
        terminal = self.echo()
        # terminfo of xterm: kcuu1 (normal mode: CSI), kf1, kf5, kdch1, kpp
        self.assert_sends(terminal, ["up"], r"\x1b[A")
        self.assert_sends(terminal, ["f1"], r"\x1bOP")
        self.assert_sends(terminal, ["f5"], r"\x1b[15~")
        self.assert_sends(terminal, ["f12"], r"\x1b[24~")
        self.assert_sends(terminal, ["delete"], r"\x1b[3~")
        self.assert_sends(terminal, ["page_up"], r"\x1b[5~")
        self.assert_sends(terminal, ["enter"], r"\r")
        self.assert_sends(terminal, ["ctrl-c"], r"\x03")
        self.assert_sends(terminal, ["x"], "x")
        terminal.send("\u5b57")
        terminal.wait_for(r"\xe5\xad\x97")
        terminal.press("q")
        self.assertEqual(terminal.wait_end(), 0)

    def test_cursor_keys_in_application_mode(self):
        terminal = self.echo()
        terminal.screen.process(b"\x1b[?1h")  # DECCKM
        self.assert_sends(terminal, ["up"], r"\x1bOA")
        self.assert_sends(terminal, ["end"], r"\x1bOF")
        terminal.screen.process(b"\x1b[?1l")
        self.assert_sends(terminal, ["end"], r"\x1b[F")

    def test_the_keypad_in_application_mode(self):
        terminal = self.echo()
        self.assert_sends(terminal, ["keypad_7"], "7")
        terminal.screen.process(b"\x1b=")  # DECKPAM
        self.assert_sends(terminal, ["keypad_7"], r"\x1bOw")
        self.assert_sends(terminal, ["keypad_enter"], r"\x1bOM")
        terminal.screen.process(b"\x1b>")  # DECKPNM
        self.assert_sends(terminal, ["keypad_7"], "7")

    def test_an_unknown_key(self):
        terminal = self.echo()
        with self.assertRaises(ValueError) as failed:
            terminal.press("x", "no_key", "y")
        self.assertIn("no key is named 'no_key'", str(failed.exception))
        self.assertIn(", ".join(KEYS), str(failed.exception))
        self.assert_sends(terminal, ["z"], "z")
        self.assertNotIn("\nx", terminal.screen.contents())  # nothing was sent

    def test_text_is_sent_to_a_program_that_reads(self):
        terminal = self.echo()
        terminal.press("q")
        self.assertEqual(terminal.wait_end(), 0)
        with self.assertRaisesRegex(WaitFailed, "sending text: .*ended with status 0(.|\n)*ready"):
            terminal.send("more")
        code = "import time, tty\ntty.setraw(0)\nprint(end='deaf')\ntime.sleep(1000)"
        with Terminal([*PYTHON, code], timeout=0.3) as terminal:
            terminal.wait_for("deaf", timeout=60)
            with self.assertRaisesRegex(WaitFailed, "sending text: not done within 0.3 seconds"):
                terminal.send(b"x" * 1000000)

    def test_much_input_and_output_at_once(self):
        code = "import os, tty\ntty.setraw(0)\nprint(end='ready')\nn = 0\n"
        code += "while n < 300000:\n d = os.read(0, 4096); n += len(d); os.write(1, d)\n"
        with Terminal([*PYTHON, code], timeout=60) as terminal:
            terminal.wait_for("ready")
            terminal.send(b"x" * 300000)
            self.assertEqual(terminal.wait_end(), 0)


class Waits(unittest.TestCase):
    SLOW = "import time\nprint('first')\ntime.sleep(0.3)\nprint('second')\ntime.sleep(1000)"

    def test_a_wait_ends_when_the_predicate_holds(self):
        with Terminal([*PYTHON, self.SLOW]) as terminal:
            self.assertEqual(terminal.wait_for("first").contents(), "first")
            screen = terminal.wait_for(lambda screen: screen.find("second"))
            self.assertEqual(screen.find("second"), [(1, 0)])
            self.assertIs(type(screen), vt100.Screen)

    def test_a_wait_fails_with_the_screen(self):
        with Terminal([*PYTHON, self.SLOW], 4, 12, timeout=0.5) as terminal:
            terminal.wait_for("second", timeout=60)
            begin = time.monotonic()
            with self.assertRaises(WaitFailed) as failed:
                terminal.wait_for("third")
            self.assertLess(time.monotonic() - begin, 5)
        self.assertIsInstance(failed.exception, AssertionError)
        self.assertEqual(
            str(failed.exception),
            "waiting for 'third': not done within 0.5 seconds\n"
            "screen of 4x12, cursor in row 2, column 0:\n"
            "+------------+\n"
            "|first       |\n"
            "|second      |\n"
            "|            |\n"
            "|            |\n"
            "+------------+",
        )
        self.assertEqual(failed.exception.screen.contents(), "first\nsecond")

    def test_a_wait_fails_at_once_when_the_program_has_ended(self):
        def has_third(screen):
            return "third" in screen.contents()

        with Terminal([*PYTHON, "import sys; print('only'); sys.exit(4)"], timeout=60) as terminal:
            begin = time.monotonic()
            with self.assertRaisesRegex(WaitFailed, r"has_third \(test_testing.py, line \d+\): .*status 4(.|\n)*only"):
                terminal.wait_for(has_third)
            self.assertLess(time.monotonic() - begin, 30)
            self.assertEqual(terminal.wait_for("only").contents(), "only")
            self.assertEqual(terminal.wait_end(), 4)

    def test_a_wait_ends_beside_endless_output(self):
        with Terminal([*PYTHON, "while True: print('y')"]) as terminal:
            for wait in (terminal.wait_end, lambda timeout: terminal.wait_for("n", timeout)):
                with self.assertRaises(WaitFailed):
                    wait(timeout=0.3)

    def test_a_wait_for_the_end_fails(self):
        with Terminal([*PYTHON, self.SLOW]) as terminal:
            terminal.wait_for("first", timeout=60)
            with self.assertRaisesRegex(WaitFailed, "end of the program(.|\n)*first"):
                terminal.wait_end(timeout=0.7)

    def test_the_program_is_told_a_new_size(self):
        code = "import os, signal\nprint('ready')\n"
        code += "signal.sigwait([signal.SIGWINCH])\nprint(*os.get_terminal_size())"
        block = "import signal\nsignal.pthread_sigmask(signal.SIG_BLOCK, [signal.SIGWINCH])\n"
        with Terminal([*PYTHON, block + code], 5, 20) as terminal:
            terminal.wait_for("ready")
            terminal.resize(4, 44)
            terminal.wait_for("44 4")
            self.assertEqual(terminal.screen.size, (4, 44))

    def test_a_frame(self):
        parser = vt100.Parser(2, 4)
        parser.process("\u5b57a\x1b[?25l".encode())
        told = "screen of 2x4, cursor in row 0, column 3, hidden:\n"
        self.assertEqual(framed(parser), told + "+----+\n|\u5b57a |\n|    |\n+----+")


class Files(unittest.TestCase):
    def test_no_descriptor_is_left_open(self):
        def count():
            return len(os.listdir("/proc/self/fd"))

        if not os.path.isdir("/proc/self/fd"):
            self.skipTest("no /proc")
        before = count()
        for _ in range(3):
            with Terminal(["true"]) as terminal:
                terminal.wait_end()
            with self.assertRaises(FileNotFoundError):
                Terminal(["/no/such/program"])
        self.assertEqual(count(), before)


if __name__ == "__main__":
    unittest.main()
