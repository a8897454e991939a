"""Tests of vt100-share attach: what a terminal of any size shows of a shared one, typing, and how a
viewer leaves and returns."""

import asyncio
import os
import signal
import socket
import struct
import subprocess
import sys
import threading
import unittest

from sharing import Shared, needs_websockets, noise, python_path
from test_program import SHARE, Run
from vt100.testing import Terminal
from vt100_share._attach import Refused, place_of
from vt100_share._attached import SharedScreen
from vt100_share._messages import Nonsense

try:
    import websockets
except ImportError:
    websockets = None


class Addresses(unittest.TestCase):
    def test_addresses_of_pages(self):
        for address, url, token in (
            ("http://127.0.0.1:8022/#abc", "ws://127.0.0.1:8022/viewer", "abc"),
            ("https://term.example.org/#a-_", "wss://term.example.org/viewer", "a-_"),
            ("https://example.org/term/#t", "wss://example.org/term/viewer", "t"),
            ("http://[::1]:80#t", "ws://[::1]:80/viewer", "t"),
        ):
            self.assertEqual(place_of(address), (url, token))

    def test_what_is_no_address(self):
        for address in (
            "",
            "x",
            "http://h/",
            "http:///#t",
            "ftp://h/#t",
            "http://[/#t",
            "http://h:x/#t",
            "http://h:0/#t",
            "http://h:99999/#t",
            "ws://h/#t",
        ):
            with self.subTest(address), self.assertRaises(Refused):
                place_of(address)


class Messages(unittest.TestCase):
    def setUp(self):
        self.screen = SharedScreen()

    def take(self, message):
        text = self.screen.text_of(message)
        if text:
            self.screen.process(text)

    def test_messages_are_read(self):
        for message in (
            b"W1",
            b"F" + struct.pack(">HH", 5, 20) + b"one",
            b"D two",
            b"Ttitle",
            b"V" + struct.pack(">II", 3, 1),
            b"S1",
            b"A1",
            b"H" + bytes(8),
            b"I" + struct.pack(">I", 9),
        ):
            self.take(message)
        self.assertEqual(self.screen.parser.contents(), "one two")
        self.assertEqual(tuple(self.screen.parser.size), (5, 20))
        self.assertEqual((self.screen.may_write, self.screen.is_stale), (True, True))
        self.assertEqual((self.screen.counts, self.screen.taken_len), ((3, 1), 9))
        self.assertEqual(self.screen.read_len, 8 + 5 + 9)
        self.assertIsNone(self.screen.status)
        self.take(b"S0")
        self.take(b"X7")
        self.assertEqual((self.screen.is_stale, self.screen.status), (False, 7))

    def test_messages_that_no_server_sends(self):
        for message in (
            b"D early",
            b"F",
            b"F\0\0\0\1",
            b"F\x01\xf5\0\1",
            b"F\0\1\x03\xe9",
            b"W",
            b"W2",
            b"S",
            b"V1",
            b"I",
            b"X",
            b"Xa",
            b"X1000",
            b"X-1",
        ):
            with self.subTest(message), self.assertRaises(Nonsense):
                self.take(message)

    def test_a_command_that_does_not_end_is_cancelled(self):
        self.take(b"F" + struct.pack(">HH", 5, 20) + b"\x1b]2;")
        for _ in range(300):
            self.take(b"D" + b"x" * 4096)
        self.assertLess(self.screen.parser.pending_len, (1 << 20) + 4097)


@needs_websockets
class Allowed(unittest.TestCase):
    def test_what_is_typed_while_typing_is_taken_back_is_dropped(self):
        async def check():
            async with Shared(["sh", "-c", "stty raw -echo; printf ready; exec cat"]) as shared:
                writer = await shared.viewer(shared.tokens.write)
                await writer.until("ready")
                shared.share.allow_typing(False)
                await writer.until_true(lambda: writer.may_write is False)
                self.assertEqual(shared.share.own_counts, (1, 0))
                await writer.send(b"ilost")
                late = await shared.viewer(shared.tokens.write)
                await late.until("ready")
                self.assertFalse(late.may_write)
                shared.share.allow_typing(True)
                await writer.until_true(lambda: writer.may_write is True)
                await writer.send(b"ifound")
                await writer.until("found")
                self.assertEqual(writer.parser.contents(), "readyfound")
                self.assertEqual(shared.share.own_counts, (2, 2))

        asyncio.run(asyncio.wait_for(check(), 60))


class Serving:
    """A server within this process, in a thread of its own, whose program the test controls."""

    def __init__(self, command, size=(24, 80)):
        self.shared = Shared(command, size)
        self.started = threading.Event()

    def __enter__(self):
        self.thread = threading.Thread(target=lambda: asyncio.run(self._serve()))
        self.thread.start()
        assert self.started.wait(30)
        return self

    def __exit__(self, *_):
        self.call(self.over.set)
        self.thread.join(30)

    async def _serve(self):
        self.loop, self.over = asyncio.get_running_loop(), asyncio.Event()
        async with self.shared:
            self.started.set()
            await self.over.wait()

    def call(self, function, *arguments):
        self.loop.call_soon_threadsafe(function, *arguments)

    def address(self, token):
        return f"http://127.0.0.1:{self.shared.port}/#{token}"


@needs_websockets
class Attached(Run):
    def serve(self, script, size=(24, 80)):
        serving = Serving(["sh", "-c", script], size)
        serving.__enter__()
        self.addCleanup(serving.__exit__)
        return serving

    def attach(self, *words, rows=24, cols=80, term=None):
        command = [*SHARE, "attach", *words]
        terminal = Terminal(command, rows, cols, env=self.environment, term=term, timeout=30)
        self.addCleanup(terminal.close)
        return terminal

    def watched(self, script, *words, rows=24, cols=80, size=(24, 80), can_write=False, term=None):
        serving = self.serve(script, size)
        tokens = serving.shared.tokens
        address = serving.address(tokens.write if can_write else tokens.read)
        return serving, self.attach(*words, address, rows=rows, cols=cols, term=term)

    def test_the_screen_and_the_status(self):
        data = os.path.join(self.folder, "data")
        with open(data, "wb") as file:
            file.write(noise(7).replace(b"\x1b[6n", b"") + b"\x1bc\x1b[1;31mred\x1b[m \xe6\x97\xa5")
        serving, terminal = self.watched(
            f"stty -echo raw; read a; cat {data}; read a; exit 5", size=(20, 70), rows=20, cols=70
        )
        terminal.wait_for(lambda screen: screen.alternate_screen)
        serving.call(serving.shared.share.type, b"\n")
        terminal.wait_for("red \u65e5")
        parser = serving.shared.share.cohort.parser
        self.assertTrue(terminal.screen.buffer == parser.buffer)
        self.assertEqual(terminal.screen.cursor, parser.cursor)
        serving.call(serving.shared.share.type, b"\n")
        self.assertEqual(terminal.wait_end(), 5)
        self.assertIn("the program has ended with status 5", terminal.screen.contents())
        self.assertFalse(terminal.screen.alternate_screen)

    def test_a_smaller_and_a_larger_terminal(self):
        script = "seq 1 40; printf 'end of it'; read a"
        _, terminal = self.watched(script, rows=5, cols=6)
        terminal.wait_for(lambda screen: screen.rows() == ["37", "38", "39", "40", "end of"])
        terminal.resize(30, 100)
        terminal.wait_for("\u2518")
        rows = terminal.screen.rows()
        self.assertEqual(
            rows[22:25],
            [
                "40" + " " * 78 + "\u2502",
                "end of it" + " " * 71 + "\u2502",
                "\u2500" * 80 + "\u2518",
            ],
        )
        terminal.resize(24, 80)
        terminal.wait_for(lambda screen: screen.rows()[22:] == ["40", "end of it"])

    def test_the_size_of_the_shared_terminal_changes(self):
        serving, terminal = self.watched("seq 1 40; printf end; read a", rows=10, cols=40)
        terminal.wait_for("end")
        serving.call(serving.shared.share.resize, 8, 30)
        terminal.wait_for("\u2500" * 30 + "\u2518")
        terminal.wait_for("end")

    def test_typing_needs_the_option_and_the_address(self):
        script = "stty raw -echo; printf '\\033[?1h\\033[?1000h\\033[?1006hready'; exec cat -v"
        serving, terminal = self.watched(script, "--write", can_write=True, term="linux")
        terminal.wait_for("ready")
        terminal.send("a\x1b[1~\x1b[[A")
        terminal.wait_for("readya^[OH^[OP")
        terminal.click(3, 4)
        terminal.wait_for("^[[<0;5;4M")
        for words, token in (
            (["--write"], serving.shared.tokens.read),
            ([], serving.shared.tokens.write),
        ):
            other = self.attach(*words, serving.address(token))
            other.wait_for("readya")
            self.assertFalse(other.screen.application_cursor)
            self.assertEqual(int(other.screen.mouse_protocol_mode), 0)
            other.send("z")
            other.send("\x1d")
            other.wait_for("you only watch | q: leave")
            other.send("q")
            self.assertEqual(other.wait_end(), 0)
        terminal.send("b")
        terminal.wait_for("^[[<0;5;4mb")
        self.assertNotIn("z", terminal.screen.contents())

    def test_what_was_read_is_acknowledged(self):
        # More than a viewer gets until it acknowledges something.
        script = "stty -echo; n=0; while read a; do n=$((n+1)); printf '\\033[H'; "
        script += "base64 -w0 </dev/urandom | head -c 1500; printf ' mark%d.' $n; done"
        serving, terminal = self.watched(script)
        terminal.wait_for(lambda screen: screen.alternate_screen)
        for number in range(1, 13):
            serving.call(serving.shared.share.type, b"\r")
            terminal.wait_for(f"mark{number}.")

    def test_typing_that_is_taken_back_and_allowed_again(self):
        serving, terminal = self.watched(
            "stty raw -echo; printf ready; exec cat -v", "--write", can_write=True
        )
        terminal.wait_for("ready")
        for is_allowed, role, read in (
            (False, "you only watch", "ready"),
            (True, "you may type", "readyx"),
        ):
            serving.call(serving.shared.share.allow_typing, is_allowed)
            terminal.wait_for(lambda screen: True)
            terminal.send("\x1d")
            terminal.wait_for(role)
            terminal.send("\x1b")
            terminal.wait_for(lambda screen: "leave" not in screen.contents())
            terminal.send("x")
            terminal.wait_for(lambda screen: screen.contents() == read)
        self.assertNotIn("xx", terminal.screen.contents())

    def test_a_long_paste_arrives_whole(self):
        path = os.path.join(self.folder, "read")
        text = b"".join(b"%07d." % number for number in range(25000))
        # The program reads less than a viewer may send.
        script = "stty raw -echo; printf ready; for k in $(seq 50); do dd bs=4000 count=1 "
        script += f"iflag=fullblock 2>/dev/null; sleep 0.2; done >{path}; printf done; read a"
        _, terminal = self.watched(script, "--write", can_write=True)
        terminal.wait_for("ready")
        terminal.timeout = 60
        terminal.send(text)
        terminal.wait_for("readydone")
        with open(path, "rb") as file:
            self.assertEqual(file.read(), text)

    def test_leaving(self):
        serving, terminal = self.watched("printf ready; read a")
        terminal.wait_for("ready")
        terminal.send("\x1d")
        terminal.wait_for("1 viewer, 0 may type; you only watch | q: leave | Ctrl+]: send Ctrl+]")
        terminal.send("q")
        self.assertEqual(terminal.wait_end(), 0)
        self.assertFalse(terminal.screen.alternate_screen)
        token = serving.shared.tokens.read
        other = self.attach("--key", "ctrl-a", serving.address(token))
        other.wait_for("ready")
        other.send("\x03")
        self.assertEqual(other.wait_end(), 0)
        other = self.attach(serving.address(token))
        other.wait_for("ready")
        os.kill(other._program._process.pid, signal.SIGTERM)
        self.assertEqual(other.wait_end(), 128 + signal.SIGTERM)
        self.assertFalse(other.screen.alternate_screen)

    def test_a_lost_connection_is_made_again(self):
        serving, terminal = self.watched(
            "n=0; while read a; do n=$((n+1)); echo line $n; done", can_write=True
        )
        terminal.wait_for(lambda screen: screen.alternate_screen)
        serving.call(serving.shared.share.type, b"\r")
        terminal.wait_for("line 1")
        server = serving.shared.server
        serving.call(lambda: [one.abort() for one in list(server.connections)])
        terminal.wait_for("Not connected: this screen may be old. Connecting again...")
        self.assertIn("line 1", terminal.screen.contents())
        serving.call(serving.shared.share.type, b"\r")
        terminal.wait_for("line 2")
        terminal.wait_for(lambda screen: "Not connected" not in screen.contents())

    def test_who_is_refused(self):
        serving = self.serve("read a")
        terminal = self.attach(serving.address("x" * 24))
        self.assertEqual(terminal.wait_end(), 2)
        self.assertIn(
            "the server has ended the connection: the token is wrong", terminal.screen.contents()
        )
        with socket.socket() as one:
            one.bind(("127.0.0.1", 0))
            terminal = self.attach(f"http://127.0.0.1:{one.getsockname()[1]}/#token")
            self.assertEqual(terminal.wait_end(), 2)
        self.assertIn("cannot connect: ", terminal.screen.contents())
        for words, text in (
            (["x"], "an address is http"),
            (["--key", "none", "http://h/#t"], "requires a key"),
        ):
            terminal = self.attach(*words)
            self.assertEqual(terminal.wait_end(), 2)
            self.assertIn(text, terminal.screen.contents())

    def test_an_address_that_is_typed(self):
        serving = self.serve("printf ready; read a")
        terminal = self.attach("-")
        terminal.wait_for("Address:")
        terminal.send(serving.address(serving.shared.tokens.read) + "\r")
        terminal.wait_for(lambda screen: screen.contents() == "ready")

    def test_without_a_terminal(self):
        done = subprocess.run(
            [*SHARE, "attach", "http://h/#t"],
            env=self.environment,
            stdin=subprocess.DEVNULL,
            stdout=subprocess.PIPE,
            stderr=subprocess.PIPE,
            universal_newlines=True,
        )
        self.assertEqual((done.returncode, done.stdout), (2, ""))
        self.assertRegex(done.stderr, "^vt100-share: attach requires a terminal")

    def test_a_server_that_makes_no_sense(self):
        code = "import sys; sys.path.insert(0, sys.argv[1]); from test_attach import nonsense; "
        code += "nonsense()"
        process = subprocess.Popen(
            [sys.executable, "-c", code, os.path.dirname(os.path.abspath(__file__))],
            stdout=subprocess.PIPE,
            env={**os.environ, "PYTHONPATH": python_path()},
        )
        self.addCleanup(process.communicate)
        self.addCleanup(process.kill)
        port = int(process.stdout.readline())
        terminal = self.attach(f"http://127.0.0.1:{port}/#token")
        self.assertEqual(terminal.wait_end(), 2)
        self.assertIn(
            "the server makes no sense: the screen is too large", terminal.screen.contents()
        )


def nonsense():
    """Serves messages that no server sends. Prints the port."""

    async def talk(socket, *_):
        await socket.recv()
        await socket.send(b"W1")
        await socket.send(b"F\xff\xff\xff\xff")
        await socket.wait_closed()

    async def serve():
        async with websockets.serve(talk, "127.0.0.1", 0) as server:
            print(server.sockets[0].getsockname()[1], flush=True)
            await asyncio.sleep(60)

    asyncio.run(serve())


if __name__ == "__main__":
    unittest.main()
