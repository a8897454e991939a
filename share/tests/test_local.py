"""Tests of the terminal in which vt100-share was started: its keys, its size, the line that a key
opens, and what it shows while it is busy."""

import asyncio
import json
import os
import re
import shutil
import socket
import subprocess
import sys
import time
import unittest

import vt100
from sharing import Client, needs_websockets
from test_cohort import NARROWED
from test_program import SHARE, Run
from vt100.testing import Terminal

#: The terminal type whose keys are those of this library's terminals.
OWN_TERM = ["--term", "caldrosk-256color"]

#: Shows each byte that it reads.
ECHO = r"""
stty raw -echo
printf ready
exec cat -v
"""


def written(folder, name, text):
    path = os.path.join(folder, name)
    with open(path, "w", encoding="utf-8") as file:
        file.write(text)
    return path


class Started(Run):
    """Starts vt100-share in a terminal of the tests, which needs no page."""

    def start_here(self, *arguments, rows=10, cols=70, term=None, callbacks=None):
        # Long addresses would take more rows.
        words = [*SHARE, "--public", "http://h/", *arguments]
        terminal = Terminal(
            words, rows, cols, env=self.environment, term=term, timeout=60, callbacks=callbacks
        )
        self.addCleanup(terminal.close)
        terminal.wait_for("Press Enter to start.")
        terminal.press("enter")
        return terminal

    def until(self, condition):
        end = time.monotonic() + 60
        while not condition():
            self.assertLess(time.monotonic(), end, "waited in vain")
            time.sleep(0.02)


@needs_websockets
class Keys(Started):
    def assert_reads(self, term, pairs, modes=""):
        script = f"printf '{modes}'" + ECHO
        terminal = self.start_here(*OWN_TERM, "--", "sh", "-c", script, term=term)
        terminal.wait_for("ready")
        expected = "ready"
        for sent, read in pairs:
            terminal.send(sent)
            expected += read
            with self.subTest(term, sent=sent, modes=modes):
                terminal.wait_for(lambda screen: screen.contents() == expected)
        terminal.close()

    def test_keys_are_those_of_the_program_s_terminal(self):
        # What terminfo says of these terminals: khome, kend, kf1, kf5, kUP and kUP5.
        self.assert_reads(
            "tmux-256color", [("\x1b[1~", "^[[H"), ("\x1b[4~", "^[[F"), ("\x1b[1;5A", "^[[1;5A")]
        )
        self.assert_reads(
            "linux",
            [("\x1b[1~", "^[[H"), ("\x1b[4~", "^[[F"), ("\x1b[[A", "^[OP"), ("\x1b[[E", "^[[15~")],
        )
        self.assert_reads(
            "rxvt",
            [
                ("\x1b[7~", "^[[H"),
                ("\x1b[8~", "^[[F"),
                ("\x1b[11~", "^[OP"),
                ("\x1b[a", "^[[1;2A"),
                ("\x1bOa", "^[[1;5A"),
                ("\x1b[3~", "^[[3~"),
            ],
        )

    def test_cursor_keys_follow_the_mode_of_the_program(self):
        pairs = [("\x1b[1~", "^[OH"), ("\x1b[4~", "^[OF"), ("\x1bOA", "^[OA"), ("\x1b[B", "^[OB")]
        self.assert_reads("tmux-256color", pairs, modes=r"\033[?1h")
        pairs = [("\x1b[1~", "^[[H"), ("\x1b[A", "^[[A"), ("\x1bOB", "^[[B")]
        self.assert_reads("tmux-256color", pairs)

    def test_other_input_stays_as_it_is(self):
        pairs = [
            ("\x1b", "^["),
            ("x\x1bx", "x^[x"),
            ("\x1b[200~\x1b[1~\x1d\x1b[201~", "^[[200~^[[1~^]^[[201~"),
            ("\x1b[", "^[["),
            ("\x1b[99z", "^[[99z"),
            ("\u00e9", "M-CM-)"),
        ]
        self.assert_reads("tmux-256color", pairs)

    def test_a_terminal_without_an_entry_sends_its_own_keys(self):
        self.assert_reads("no-such-terminal", [("\x1b[1~", "^[[1~"), ("\x1b[H", "^[[H")])

    def test_a_key_may_arrive_in_parts(self):
        terminal = self.start_here(*OWN_TERM, "--", "sh", "-c", ECHO, term="linux")
        terminal.wait_for("ready")
        for part in ("\x1b", "[", "[", "A", "x"):
            terminal.send(part)
        terminal.wait_for(lambda screen: screen.contents() in ("ready^[OPx", "ready^[[[Ax"))

    @unittest.skipUnless(shutil.which("tmux"), "there is no tmux")
    @unittest.skipUnless(shutil.which("dialog"), "there is no dialog")
    def test_dialog_in_tmux(self):
        out = os.path.join(self.folder, "out")
        socket = ["tmux", "-S", os.path.join(self.folder, "tmux"), "-f", "/dev/null"]
        dialog = written(self.folder, "dialog", f"exec dialog --inputbox title 10 40 hello 2>{out}")
        script = f"{' '.join(SHARE)} -- sh {dialog}; echo status $?; sleep 60\n"
        script = written(self.folder, "run", script)
        environment = {**self.environment, "LC_ALL": "C.UTF-8", "TERM": "xterm"}
        new = ["new-session", "-d", "-x", "100", "-y", "24", f"sh {script}"]
        subprocess.run([*socket, *new], check=True, env=environment)
        self.addCleanup(subprocess.run, [*socket, "kill-server"], stderr=subprocess.DEVNULL)

        def shows(text):
            pane = subprocess.check_output([*socket, "capture-pane", "-p"], universal_newlines=True)
            return text in pane

        self.until(lambda: shows("Press Enter"))
        subprocess.run([*socket, "send-keys", "Enter"], check=True)
        self.until(lambda: shows("hello"))
        for keys, text in (
            (["Home", "a"], "ahello"),
            (["End", "z"], "ahelloz"),
            (["Home", "DC"], "helloz"),
        ):
            subprocess.run([*socket, "send-keys", *keys], check=True)
            self.until(lambda: shows(text))
        subprocess.run([*socket, "send-keys", "Enter"], check=True)
        self.until(lambda: shows("status 0"))
        with open(out, encoding="utf-8") as file:
            self.assertEqual(file.read(), "helloz")


SIZES = """
import os, signal, sys
def say(*_):
    size = os.get_terminal_size(0)
    print(size.lines, size.columns, flush=True)
signal.signal(signal.SIGWINCH, say)
say()
for line in sys.stdin:
    say()
"""


@needs_websockets
class Sizes(Started):
    def test_the_program_gets_the_size_that_the_terminal_has_when_it_starts(self):
        words = [*SHARE, "--", "sh", "-c", "stty size; read a"]
        with Terminal(words, 10, 110, env=self.environment, timeout=60) as terminal:
            terminal.wait_for("Press Enter to start.")
            terminal.resize(12, 90)
            terminal.press("enter")
            terminal.wait_for("12 90")

    def test_the_program_follows_the_size_of_the_terminal(self):
        path = os.path.join(self.folder, "out.cast")
        terminal = self.start_here("--record", path, "--", sys.executable, "-c", SIZES)
        terminal.wait_for("10 70")
        for rows, cols in ((6, 40), (20, 100), (20, 30)):
            terminal.resize(rows, cols)
            terminal.wait_for(f"{rows} {cols}")
            self.assertNotIn("\u2502", terminal.screen.contents())
        terminal.send("\r")
        terminal.wait_for("20 30\n\n20 30")
        terminal.send("\x04")
        terminal.wait_end()
        with open(path, encoding="utf-8") as file:
            head, *events = map(json.loads, file)
        self.assertEqual((head["width"], head["height"]), (70, 10))
        sizes = [data for _, kind, data in events if kind == "r"]
        self.assertEqual(sizes, ["40x6", "100x20", "30x20"])

    def test_of_many_sizes_the_newest_counts(self):
        path = os.path.join(self.folder, "out.cast")
        terminal = self.start_here("--record", path, "--", sys.executable, "-c", SIZES)
        terminal.wait_for("10 70")
        start = time.monotonic()
        for number in range(200):
            terminal.resize(10 + number % 20, 40 + number % 50)
            terminal.read(0.005)
        terminal.resize(13, 57)
        terminal.wait_for("13 57")
        passed = time.monotonic() - start
        terminal.send("\x04")
        terminal.wait_end()
        with open(path, encoding="utf-8") as file:
            _, *events = map(json.loads, file)
        sizes = [data for _, kind, data in events if kind == "r"]
        self.assertEqual(sizes[-1], "57x13")
        self.assertLess(len(sizes), 30 * passed + 3)

    def test_a_fixed_size_is_framed_or_cut_off(self):
        script = "seq 1 8; printf 'a long line of text%021dend' 0; read a"
        terminal = self.start_here("--size", "9x44", "--", "sh", "-c", script)
        terminal.wait_for("end")
        rows = terminal.screen.rows()
        self.assertEqual(rows[0], "1" + " " * 43 + "\u2502")
        self.assertEqual(rows[9], "\u2500" * 44 + "\u2518")
        terminal.resize(5, 12)
        terminal.wait_for(lambda screen: screen.rows() == ["5", "6", "7", "8", "a long line "])
        terminal.resize(10, 70)
        terminal.wait_for(lambda screen: screen.rows() == rows)
        terminal.send("\r")
        self.assertEqual(terminal.wait_end(), 0)

    def test_a_terminal_of_the_same_size_has_no_frame(self):
        terminal = self.start_here("--size", "10x70", "--", "sh", "-c", "printf 'x%069d' 0; read a")
        terminal.wait_for("x" + "0" * 69)
        self.assertEqual(terminal.screen.contents(), "x" + "0" * 69)

    def test_the_mouse_is_moved_with_the_rows_that_are_cut_off(self):
        script = r"stty raw -echo; printf '\033[?1000h\033[?1006h\033[20Hend'; exec cat -v"
        terminal = self.start_here("--size", "20x30", "--", "sh", "-c", script)
        terminal.wait_for("end")
        terminal.click(2, 4)
        # The last ten of twenty rows are visible; the report of the release ends the line.
        terminal.wait_for("^[[<0;5;13M^[[<0;5;13")
        terminal.click(2, 40)
        terminal.click(9, 0)
        terminal.wait_for("<0;1;20")
        self.assertNotIn("41", terminal.screen.contents())

    def test_the_screen_is_drawn_again_after_a_change_of_size(self):
        terminal = self.start_here("--size", "5x30", "--", "sh", "-c", "printf word; read a")
        terminal.wait_for("word")
        for sizes in ([(10, 71)], [(11, 71), (10, 71)]):
            terminal.screen.process(b"\x1b[2J")
            for size in sizes:
                terminal.resize(*size)
            terminal.wait_for("word")


class Setups(vt100.Callbacks):
    """Counts how often a terminal is prepared for a redraw."""

    count = 0

    def unhandled_escape(self, screen, first, second, byte):
        self.count += (first, byte) == (ord("%"), ord("G"))


@needs_websockets
class Output(Started):
    def test_a_busy_terminal_gets_the_last_screen(self):
        script = (
            'stty -echo; i=0 new=$0 old=$1; while [ $i -lt 20 ]; do i=$((i+1)) j=0; '
            'while [ $j -lt 40 ]; do j=$((j+1)); echo "$i $j $new"; done; '
            'echo "end $i"; read a; next=$old old=$new new=$next; done; printf last; read a'
        )
        path = os.path.join(self.folder, "out.cast")
        command = ["sh", "-c", script, "x" * 60, "y" * 60]
        terminal = self.start_here("--record", path, "--", *command, rows=40)
        # The terminal is not read. It has room for a few of these screens, which have little in common.
        for number in range(1, 21):
            self.until(lambda: f"end {number}\r\n" in self.recorded(path))
            terminal.send("\r")
        # Nor is it until there has been a round after the last output.
        self.until(lambda: "last" in self.recorded(path))
        time.sleep(0.5)
        terminal.wait_for("last")
        self.assertTrue(terminal.screen.contents().endswith(f"20 40 {'y' * 60}\nend 20\nlast"))

    def test_an_unsteady_screen_is_redrawn(self):
        script = 'stty -echo; printf "$0"; read a; printf "\\r\\033[Jab"; read a; echo cd; read a'
        whole = vt100.Parser(10, 70)
        whole.process(NARROWED.encode())
        self.assertFalse(whole.is_steady())
        setups = Setups()
        terminal = self.start_here("--", "sh", "-c", script, NARROWED, callbacks=setups)
        terminal.wait_for(NARROWED)
        before = setups.count
        terminal.send("\r")
        whole.process(b"\r\x1b[Jab")
        terminal.wait_for("ab")
        self.assertTrue(terminal.screen.buffer == whole.buffer)
        self.assertEqual(setups.count, before + 1)
        # From a screen that is steady, there are diffs again.
        terminal.send("\r")
        terminal.wait_for("cd")
        self.assertEqual(setups.count, before + 1)


@needs_websockets
class Lingering(Started):
    async def _watch(self, port, token):
        viewer = await Client(port).open(token)
        await viewer.until_end()
        viewer.close()
        await viewer.writer.wait_closed()

    def test_viewers_who_join_after_the_end_leave_the_terminal_alone(self):
        with socket.create_server(("127.0.0.1", 0)) as one:
            port = one.getsockname()[1]
        token = self.environment["VT100_SHARE_READ"] = "r" * 20
        terminal = self.start_here("--port", str(port), "--linger", "5", "--", "true")
        time.sleep(1)
        asyncio.run(self._watch(port, token))
        screen = terminal.wait_for("the program has ended with status 0")
        self.assertNotIn("internal error", screen.contents())


@needs_websockets
class Line(Started):
    def test_the_line_says_who_watches_and_shows_the_addresses(self):
        terminal = self.start_here("--write", "--", "sh", "-c", ECHO)
        terminal.wait_for("ready")
        terminal.send("\x1d")
        terminal.wait_for(
            re.compile(r"0 viewers, 0 may type \| a: addresses \| t: take typing back")
        )
        terminal.send("a")
        screen = terminal.wait_for("type:")
        self.assertRegex(
            screen.contents(), r"watch: http://h/#[\w-]{24} *\ntype: +http://h/#[\w-]{24}"
        )
        terminal.send("x")
        terminal.wait_for(lambda screen: screen.contents() == "ready")
        terminal.send("y")
        terminal.wait_for(lambda screen: screen.contents() == "readyy")

    def test_typed_twice_the_key_goes_to_the_program(self):
        terminal = self.start_here("--", "sh", "-c", ECHO)
        terminal.wait_for("ready")
        terminal.send("a\x1d\x1db\x1d")
        terminal.wait_for("0 viewers |")
        self.assertNotIn("take typing", terminal.screen.contents())
        terminal.send("\x1d")
        terminal.wait_for(lambda screen: screen.contents() == "readya^]b^]")

    def test_another_key_or_none(self):
        terminal = self.start_here("--key", "ctrl-a", "--", "sh", "-c", ECHO)
        terminal.wait_for("ready")
        terminal.send("\x1d\x01")
        terminal.wait_for("Ctrl+A: send Ctrl+A")
        terminal.send("\x01")
        terminal.wait_for(lambda screen: screen.contents() == "ready^]^A")
        terminal = self.start_here("--key", "none", "--", "sh", "-c", ECHO)
        terminal.wait_for("ready")
        terminal.send("\x1d")
        terminal.wait_for(lambda screen: screen.contents() == "ready^]")
        for key in ("x", "ctrl-", "ctrl-1", "ctrl-m", "ctrl-[", "alt-a", ""):
            self.check(2, "a key is none, or ctrl- and", "--key", key, "--", "true")

    def test_the_line_is_cut_into_rows(self):
        terminal = self.start_here("--write", "--", "sh", "-c", ECHO, rows=10, cols=30)
        terminal.wait_for("ready")
        terminal.send("\x1d")
        parts = (
            "0 viewers, 0 may type",
            "a: addresses",
            "t: take typing back",
            "Ctrl+]: send Ctrl+]",
        )
        terminal.wait_for(re.compile(r" \| *\n".join(map(re.escape, parts))))
        self.assertFalse(terminal.screen.hide_cursor)
        terminal.send("x" + "\n" * 9)
        terminal.send("\x1d")
        terminal.wait_for(lambda screen: screen.hide_cursor)
        terminal.send("x")
        terminal.wait_for(lambda screen: not screen.hide_cursor)


if __name__ == "__main__":
    unittest.main()
