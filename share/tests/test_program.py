"""Tests of the program vt100-share: its addresses, exit status, signals and faults, and the terminal
in which it is started."""

import argparse
import asyncio
import contextlib
import json
import os
import re
import signal
import socket
import struct
import subprocess
import sys
import tempfile
import threading
import time
import unittest

from sharing import BINARY, Client, frame, needs_websockets, python_path
from vt100.testing import Terminal
from vt100_share.__main__ import _size as size_of

SHARE = [sys.executable, "-m", "vt100_share"]


class Run(unittest.TestCase):
    """Runs the program with a page that has no module: only its name is looked up."""

    def setUp(self):
        folder = tempfile.TemporaryDirectory()
        self.addCleanup(folder.cleanup)
        self.folder = folder.name
        open(os.path.join(self.folder, "vt100.wasm"), "wb").close()
        self.environment = {**os.environ, "PYTHONPATH": python_path(), "VT100_PAGE": self.folder}

    def start(self, *arguments, **more):
        process = subprocess.Popen(
            [*SHARE, "--headless", *arguments],
            stdin=subprocess.DEVNULL,
            stdout=subprocess.PIPE,
            stderr=subprocess.PIPE,
            universal_newlines=True,
            env=more.pop("env", self.environment),
        )
        self.addCleanup(process.communicate)
        self.addCleanup(process.kill)
        return process

    def recorded(self, path):
        """Returns the output that a recording has so far."""
        if not os.path.exists(path):
            return ""
        with open(path, encoding="utf-8") as file:
            lines = file.read().split("\n")[1:-1]
        return "".join(json.loads(line)[2] for line in lines)

    async def _until_end(self, port, token):
        """Returns a viewer that has read everything, up to the end of the program."""
        viewer = await (await Client(port).open(token)).until_end()
        Client.writers.clear()
        viewer.close()
        await asyncio.sleep(0)
        return viewer

    def _share_until_end(self, *arguments):
        """Shares a program until it has ended. Returns the process, and a viewer that has come after the end."""
        process = self.start(*arguments)
        port, token = re.search(r":([0-9]+)/#(\S+)", process.stdout.readline()).groups()
        for _ in range(2):
            viewer = asyncio.run(self._until_end(int(port), token))
        self.assertIsNone(process.poll())
        return process, viewer

    def check(self, status, output, *arguments, **more):
        """Runs the program to its end, and compares its exit status and its last line."""
        process = self.start(*arguments, **more)
        _, errors = process.communicate(timeout=60)
        self.assertEqual(process.returncode, status, errors)
        self.assertRegex(errors, output)
        self.assertNotIn("Traceback", errors)


@needs_websockets
class Program(Run):
    def test_the_exit_status_is_that_of_the_program(self):
        self.check(7, "status 7$", "--", "sh", "-c", "exit 7")
        self.check(143, "status 143$", "--", "sh", "-c", "kill $$")

    def test_the_program_has_the_size_and_the_terminal(self):
        path = os.path.join(self.folder, "out")
        script = 'stty size >"$1"; echo $TERM >>"$1"'
        self.check(0, "status 0", "--size", "7x40", "--", "sh", "-c", script, "sh", path)
        with open(path, encoding="ascii") as file:
            size, term = file.read().splitlines()
        self.assertEqual(size, "7 40")
        self.assertIn(term, ("tmux-256color", "caldrosk-256color", "screen-256color"))

    def test_there_is_an_address_for_reading_and_one_for_writing(self):
        process = self.start("--write", "--", "cat")
        kinds = []
        for _ in range(2):
            line = process.stdout.readline()
            found = re.match(r"(watch|type): +http://127\.0\.0\.1:[0-9]+/#([\w-]{24})$", line)
            kinds.append(found.groups())
        self.assertEqual([kind for kind, _ in kinds], ["watch", "type"])
        self.assertNotEqual(kinds[0][1], kinds[1][1])

    def test_a_signal_ends_everything(self):
        script = "trap '' HUP TERM; echo $$; sleep 60 & echo $!; wait"
        for number in (signal.SIGTERM, signal.SIGINT, signal.SIGHUP):
            record = os.path.join(self.folder, f"{number}.cast")
            process = self.start("--record", record, "--", "sh", "-c", script)
            children = []
            while len(children) < 2:
                time.sleep(0.02)
                children = self.recorded(record).split()
            process.send_signal(number)
            process.communicate(timeout=60)
            self.assertEqual(process.returncode, 128 + number)
            for child in children:
                self.assertFalse(os.path.exists(f"/proc/{child}/exe"), child)

    def test_a_port_in_use(self):
        first = self.start("--", "cat")
        port = re.search(r":([0-9]+)/", first.stdout.readline())[1]
        output = r"^vt100-share: cannot listen on 127\.0\.0\.1 port [^\n]*\n$"
        self.check(2, output, "--port", port, "--", "true")

    def test_no_such_program(self):
        self.check(2, "^vt100-share: /no/such: No such file or directory\n$", "--", "/no/such")

    def test_the_output_is_recorded(self):
        path = os.path.join(self.folder, "out.cast")
        output = "printf '\\033[1m\\303'; sleep 0.1; printf '\\244\\033[3;4Hx'"
        self.check(0, "status 0", "--size", "10x40", "--record", path, "--", "sh", "-c", output)
        with open(path, encoding="utf-8") as file:
            head, *events = map(json.loads, file)
        self.assertEqual((head["version"], head["width"], head["height"]), (2, 40, 10))
        recorded = "".join(text for _, kind, text in events if kind == "o")
        self.assertEqual(recorded, "\x1b[1m\xe4\x1b[3;4Hx")

    def test_times_and_the_head_of_a_recording(self):
        path = os.path.join(self.folder, "out.cast")
        before = int(time.time())
        output = "printf one; sleep 1; printf two"  # which may both be read late
        self.check(0, "status 0", "--record", path, "--term", "vt220", "--", "sh", "-c", output)
        with open(path, encoding="utf-8") as file:
            head, *events = map(json.loads, file)
        self.assertEqual(head["env"], {"TERM": "vt220"})
        self.assertTrue(before <= head["timestamp"] <= time.time())
        self.assertEqual([text for _, _, text in events], ["one", "two"])
        self.assertGreaterEqual(events[1][0] - events[0][0], 0.5)
        self.assertLess(events[1][0], time.time() - before + 1)

    def test_a_recording_does_not_overwrite_a_file(self):
        path = os.path.join(self.folder, "out.cast")
        with open(path, "w") as file:
            file.write("mine")
        output = "^vt100-share: cannot record: \\S+/out.cast exists; --force overwrites it\n$"
        self.check(2, output, "--record", path, "--", "true")
        with open(path, encoding="utf-8") as file:
            self.assertEqual(file.read(), "mine")
        self.check(0, "status 0", "--record", path, "--force", "--", "echo", "word")
        with open(path, encoding="utf-8") as file:
            self.assertEqual(json.loads(file.readline())["version"], 2)

    def test_what_a_program_has_left_lives_on_after_its_end(self):
        path = os.path.join(self.folder, "pid")
        script = "(trap '' HUP; sh -c 'echo $PPID' >\"$1\"; sleep 60) & "
        script += "while [ ! -s \"$1\" ]; do sleep 0.05; done; exit 3"
        self.check(3, "status 3$", "--", "sh", "-c", script, "sh", path)
        with open(path, encoding="ascii") as file:
            left = int(file.read())
        self.addCleanup(os.kill, left, signal.SIGKILL)
        time.sleep(1.5)
        self.assertTrue(os.path.exists(f"/proc/{left}/exe"))

    @unittest.skipUnless(os.path.exists("/dev/full"), "there is no /dev/full")
    def test_a_full_disk_ends_the_recording_alone(self):
        full = "^vt100-share: the recording ends: /dev/full: No space left on device"
        output = full + "\\s+.*status 3\n$"
        self.check(3, output, "--record", "/dev/full", "--", "sh", "-c", "echo a; exit 3")

    def test_a_disk_that_becomes_full_ends_the_recording_alone(self):
        path = os.path.join(self.folder, "out.cast")
        script = 'ulimit -f 8; exec "$@"'
        command = ["--record", path, "--", "sh", "-c", "seq 2000; exit 3"]
        process = subprocess.Popen(
            ["sh", "-c", script, "sh", *SHARE, "--headless", *command],
            stdout=subprocess.DEVNULL,
            stderr=subprocess.PIPE,
            universal_newlines=True,
            env=self.environment,
        )
        _, errors = process.communicate(timeout=60)
        self.assertEqual(process.returncode, 3, errors)
        full = f"^vt100-share: the recording ends: {path}: File too large\n"
        self.assertRegex(errors, full + ".* status 3\n$")
        with open(path, encoding="utf-8") as file:
            self.assertEqual(json.loads(file.readline())["version"], 2)

    def test_a_recording_in_a_directory_that_is_missing(self):
        output = "^vt100-share: cannot record: /no/such: No such file or directory\n$"
        self.check(2, output, "--record", "/no/such", "--", "true")

    def test_the_last_screen_lingers(self):
        process, viewer = self._share_until_end("--linger", "600", "--", "sh", "-c", "echo word; exit 3")
        self.assertEqual((viewer.parser.contents(), viewer.status), ("word", 3))
        process.send_signal(signal.SIGTERM)
        process.communicate(timeout=60)
        self.assertEqual(process.returncode, 3)

    def test_no_module(self):
        os.remove(os.path.join(self.folder, "vt100.wasm"))
        self.check(2, "^vt100-share: the page has no vt100.wasm; [^\n]*\n$", "--", "true")


@needs_websockets
class Outputs(Run):
    """What is printed, and to whom."""

    def shell(self, script, *arguments):
        """Runs the program in a shell, as "$@". Returns the process, which has ended."""
        command = ["bash", "-c", script, "bash", *SHARE, "--headless", *arguments]
        return subprocess.run(
            command, env=self.environment, stdin=subprocess.DEVNULL, stdout=subprocess.PIPE,
            stderr=subprocess.PIPE, universal_newlines=True, timeout=60,
        )

    def test_nobody_reads_the_standard_output(self):
        done = self.shell('"$@" > >(true); echo status $? >&2', "--public", "https://a.example/" + "x" * 70000, "--", "true")
        self.assertRegex(
            done.stderr, "^vt100-share: nobody reads the standard output\nstatus 2\n$"
        )

    def test_standard_files_that_are_closed(self):
        for files in (">&-", "<&-", "<&- >&-", "2>&-"):
            done = self.shell(f'"$@" {files}; echo status $?', "--", "sh", "-c", "exit 3")
            with self.subTest(files):
                self.assertRegex(done.stdout, "status 3\n$")
                self.assertEqual(done.stderr.count("\n"), 0 if "2" in files else 1, done.stderr)

    def test_an_address_that_can_be_opened(self):
        share = self.start("--host", "0.0.0.0", "--", "sleep", "60")
        host, port = re.search(r"http://([0-9.]+):([0-9]+)/#", share.stdout.readline()).groups()
        self.assertNotEqual(host, "0.0.0.0")
        with socket.create_connection((host, int(port)), timeout=20) as one:
            one.sendall(f"GET / HTTP/1.1\r\nHost: {host}:{port}\r\n\r\n".encode())
            self.assertTrue(one.recv(100).startswith(b"HTTP/1.1 200 "))

    def test_public_addresses_are_printed_and_checked(self):
        share = self.start("--public", "https://a.example", "--public", "http://b.example:1/x/", "--", "true")
        lines = [share.stdout.readline() for _ in range(2)]
        self.assertRegex(lines[0], r"^watch: https://a\.example/#\S{24}\n$")
        self.assertRegex(lines[1], r"^watch: http://b\.example:1/x/#\S{24}\n$")
        for wrong in ("notaurl", "http://["):
            said = "argument --public: an address of the page is http://HOST/ or https://HOST/\n$"
            self.check(2, said, "--public", wrong, "--", "true")

    def test_a_signal_ends_the_time_after_the_end(self):
        share, _ = self._share_until_end("--linger", "600", "--", "sh", "-c", "exit 4")
        share.send_signal(signal.SIGINT)
        _, said = share.communicate(timeout=60)
        self.assertEqual((share.returncode, said), (4, "vt100-share: the program has ended with status 4\n"))


class Faults(Run):
    def test_no_websockets(self):
        os.mkdir(os.path.join(self.folder, "websockets"))
        with open(os.path.join(self.folder, "websockets", "__init__.py"), "w") as file:
            file.write("raise ImportError\n")
        environment = {**self.environment, "PYTHONPATH": python_path(self.folder)}
        output = "^vt100-share: the package websockets is required: [^\n]*\n$"
        self.check(2, output, "--", "true", env=environment)

    def test_wrong_sizes(self):
        self.check(2, "argument --size: a size is ROWSxCOLS", "--size", "24", "--", "true")
        for size in ("0x80", "", "x", "24x80x2", "501x80", "24x1001", "-1x5", "\u00b2x5"):
            with self.subTest(size), self.assertRaises(argparse.ArgumentTypeError):
                size_of(size)
        self.assertEqual(size_of("500x1000"), (500, 1000))


@needs_websockets
class Local(Run):
    def start_here(self, *arguments):
        command = [*SHARE, *arguments]
        return Terminal(command, rows=10, cols=110, env=self.environment, timeout=60)

    def test_the_program_is_shown_and_typed_to_in_the_starting_terminal(self):
        script = 'stty size; read a; printf "\\033[?1hgot $a"; read b; exit 5'
        with self.start_here("--", "sh", "-c", script) as terminal:
            terminal.wait_for("Press Enter to start.")
            before = terminal.screen.contents()
            terminal.press("enter")
            terminal.wait_for("10 110")
            self.assertTrue(terminal.screen.alternate_screen)
            terminal.send("word\r")
            terminal.wait_for("got word")
            self.assertTrue(terminal.screen.application_cursor)
            terminal.resize(12, 100)
            terminal.wait_for("got word")
            terminal.press("enter")
            self.assertEqual(terminal.wait_end(), 5)
            self.assertIn("has ended with status 5", terminal.screen.contents())
            self.assertIn("watch: http://127.0.0.1:", before)
            self.assertFalse(terminal.screen.alternate_screen)
            self.assertFalse(terminal.screen.application_cursor)

    @unittest.skipUnless(os.path.exists("/dev/full"), "there is no /dev/full")
    def test_a_message_while_the_program_is_shown_comes_at_the_end(self):
        words = ["--record", "/dev/full", "--", "sh", "-c", "echo word; read a"]
        with self.start_here(*words) as terminal:
            terminal.wait_for("Press Enter to start.")
            terminal.press("enter")
            terminal.wait_for("word")
            self.assertNotIn("recording", terminal.screen.contents())
            terminal.press("enter")
            terminal.wait_end()
            self.assertIn("the recording ends: /dev/full: No space", terminal.screen.contents())

    def test_the_terminal_is_restored_after_a_signal(self):
        script = '"$@"; echo status $?; stty -a'
        command = ["sh", "-c", script, "sh", *SHARE, "--", "sh", "-c", "echo $PPID; sleep 60"]
        with Terminal(command, rows=20, cols=110, env=self.environment, timeout=60) as terminal:
            terminal.wait_for("Press Enter to start.")
            terminal.press("enter")
            screen = terminal.wait_for(re.compile("^[0-9]+$"))
            os.kill(int(screen.contents()), signal.SIGTERM)
            screen = terminal.wait_for(re.compile("status 143.* icanon.* echo ", re.DOTALL))
            self.assertFalse(screen.alternate_screen)

    def _drip(self, port, token, ended):
        """A viewer that acknowledges a byte at a time, until it is to end."""
        handshake = (
            "GET /viewer HTTP/1.1\r\nHost: 127.0.0.1\r\nConnection: Upgrade\r\nUpgrade: websocket\r\n"
            "Sec-WebSocket-Version: 13\r\nSec-WebSocket-Key: dGhlIHNhbXBsZSBub25jZQ==\r\n\r\n"
        )
        with socket.create_connection(("127.0.0.1", port)) as viewer:
            viewer.sendall(handshake.encode() + frame(BINARY, b"t" + token.encode()))
            viewer.recv(4096)
            count = 0
            while not ended.wait(0.2):
                count += 1
                with contextlib.suppress(ConnectionError):
                    viewer.sendall(frame(BINARY, b"a" + struct.pack(">I", count)))

    def test_a_slow_viewer_does_not_hold_the_terminal(self):
        script = "seq 100000 103000; read a; exit 6"
        ended = threading.Event()
        with self.start_here("--scrollback", "3000", "--", "sh", "-c", script) as terminal:
            screen = terminal.wait_for("Press Enter to start.")
            address = re.search(r":([0-9]+)/#(\S+)", screen.contents()).groups()
            terminal.press("enter")
            terminal.wait_for("103000")
            viewer = threading.Thread(target=self._drip, args=(int(address[0]), address[1], ended))
            viewer.start()
            try:
                time.sleep(1)  # it has acknowledged a few bytes of many
                terminal.press("enter")
                screen = terminal.wait_for("viewers are reading the last screen; Ctrl+C ends this", 60)
                self.assertFalse(screen.alternate_screen)
                terminal.press("ctrl-c")
                self.assertEqual(terminal.wait_end(60), 6)
            finally:
                ended.set()
                viewer.join()

    def test_a_terminal_that_is_closed_ends_the_program(self):
        path = os.path.join(self.folder, "pids")
        script = 'echo $PPID $$ >"$1"; while :; do echo word; sleep 0.05; done'
        with self.start_here("--", "sh", "-c", script, "sh", path) as terminal:
            terminal.wait_for("Press Enter to start.")
            terminal.press("enter")
            terminal.wait_for("word")
            with open(path, encoding="ascii") as file:
                processes = file.read().split()
        end = time.monotonic() + 60
        while any(os.path.exists(f"/proc/{process}/exe") for process in processes):
            self.assertLess(time.monotonic(), end)
            time.sleep(0.02)


if __name__ == "__main__":
    unittest.main()
