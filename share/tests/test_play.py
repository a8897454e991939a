"""Tests of vt100-share --play: what viewers see of a recording, and files that are none."""

import asyncio
import json
import os
import re
import tempfile
import time
import unittest

import sharing
import vt100
from sharing import Client, needs_websockets, noise, recorded
from test_program import SHARE, Run
from vt100.testing import Terminal
from vt100_share._play import BadRecording, Cast, Playback
from vt100_share._server import Server
from vt100_share._site import Site
from vt100_share._viewers import Tokens


def written(folder, events, head=None, size=(24, 80)):
    """Writes a recording. Returns its path."""
    path = os.path.join(folder, "in.cast")
    rows, cols = size
    with open(path, "w", encoding="utf-8") as file:
        for line in [{"version": 2, "width": cols, "height": rows, **(head or {})}, *events]:
            file.write(json.dumps(line) + "\n")
    return path


def chunks(data, pause):
    """Returns events with the output in 20 chunks, which may end within a character."""
    text = data.decode()
    step = len(text) // 20 + 1
    return [[pause * at / step, "o", text[at : at + step]] for at in range(0, len(text), step)]


class Played:
    """A recording and its server, within this process."""

    def __init__(self, path, speed=1.0):
        self.cast, self.speed, self.reports = Cast(path), speed, []

    async def __aenter__(self):
        self.tokens = Tokens(False)
        self.server = Server(Site(sharing.PAGE, "127.0.0.1", []), self.tokens, 100)
        self.port = await self.server.start("127.0.0.1", 0, self.reports.append)
        self.share = self.server.share = Playback(self.cast, self.speed, self.reports.append)
        return self

    async def __aexit__(self, *_):
        self.share.close()
        while Client.writers:
            Client.writers.pop().close()
        await self.server.close()

    async def viewer(self):
        return await Client(self.port).open(self.tokens.read)


@needs_websockets
class Screens(unittest.TestCase):
    def setUp(self):
        folder = tempfile.TemporaryDirectory()
        self.addCleanup(folder.cleanup)
        self.folder = folder.name

    def played(self, path, delays=(0,), speed=1.0):
        """Returns the viewers that come after some delays, when the recording has ended."""

        async def one(played, delay):
            await asyncio.sleep(delay)
            return await (await played.viewer()).until_end()

        async def run():
            async with Played(path, speed) as played:
                viewers = await asyncio.gather(*(one(played, delay) for delay in delays))
                await asyncio.wait_for(played.share.ended.wait(), 20)
                return viewers, played.reports

        return asyncio.run(run())

    def test_viewers_see_the_recording(self):
        for data in (recorded(), noise(6) + b"\x1b[2J\x1b[Hend"):
            terminal = vt100.Parser(24, 80)
            terminal.process(data)
            path = written(self.folder, chunks(data, 0.03))
            viewers, reports = self.played(path, (0, 0.1, 0.3, 0.5))
            for viewer in viewers:
                self.assertEqual(viewer.parser.state_formatted(), terminal.state_formatted())
                self.assertEqual(viewer.parser.buffer, terminal.buffer)
                self.assertEqual((viewer.status, viewer.may_write), (0, False))
            self.assertTrue(any(viewer.updates > 5 for viewer in viewers))
            self.assertEqual(reports, [])

    def test_resizes_titles_and_other_events(self):
        events = [
            [0.0, "o", "\x1b]2;name\x07first"], [0.05, "i", "typed"], [0.1, "r", "30x7"],
            [0.15, "m", "mark"], [0.2, "o", "\r\nsecond\x1b[7;30Hx\x1b[6n"], [0.21, "r", "31x8"],
        ]
        viewers, _ = self.played(written(self.folder, events), (0, 0.1))
        terminal = vt100.Parser(24, 80)
        terminal.process(b"first")
        terminal.set_size(7, 30)
        terminal.process(b"\r\nsecond\x1b[7;30Hx")
        terminal.set_size(8, 31)
        for viewer in viewers:
            self.assertEqual(viewer.parser.size, (8, 31))
            self.assertEqual(viewer.parser.state_formatted(), terminal.state_formatted())
            self.assertEqual(viewer.title, "name")

    def test_version_3(self):
        path = written(self.folder, [])
        with open(path, "w", encoding="utf-8") as file:
            file.write('{"version": 3, "term": {"cols": 40, "rows": 5}, "title": "name"}\n\n# x\n')
            for event in ([0.1, "o", "a"], [0.1, "r", "50x6"], [0.1, "o", "b"], [0.2, "x", "7"]):
                file.write(json.dumps(event) + "\n")
        start = time.monotonic()
        viewers, _ = self.played(path)
        self.assertGreater(time.monotonic() - start, 0.49)
        for viewer in viewers:
            self.assertEqual(viewer.parser.size, (6, 50))
            self.assertEqual(viewer.parser.contents(), "ab")
            self.assertEqual((viewer.status, viewer.title), (7, "name"))

    def test_the_time_between_events(self):
        events = [[0.0, "o", "a"], [60.0, "o", "b"]]
        for head, speed, least in (
            ({}, 300, 0.19),
            ({"idle_time_limit": 0.3}, 1.0, 0.29),
            ({"idle_time_limit": 0.3}, 3.0, 0.09),
        ):
            start = time.monotonic()
            viewers, _ = self.played(written(self.folder, events, head), speed=speed)
            self.assertTrue(least <= time.monotonic() - start <= 20)
            self.assertEqual(viewers[0].parser.contents(), "ab")

    def test_a_line_that_is_no_event_ends_the_recording(self):
        for wrong in (7, [1, "o"], ["1", "o", "x"], [-1, "o", "x"], [1, "o", 5], [1, "r", "0x5"],
                      [True, "o", "x"], [1, None, "x"], [1, "r", "x"],
                      [1, "r", "80x99999"], [1, "r", "\u00b2x5"], {"a": 1}):
            with self.subTest(wrong):
                path = written(self.folder, [[0, "o", "good"], wrong, [2, "o", "bad"]])
                viewers, reports = self.played(path, speed=1000)
                self.assertEqual(viewers[0].status, 1)
                self.assertEqual(viewers[0].parser.contents(), "good")
                self.assertEqual(len(reports), 1)
                self.assertIn(f"{path}: line 3: not a", reports[0])

    def test_a_recording_that_was_cut_off(self):
        whole = [[0, "o", "good \u00e9"], [0.1, "o", " bad \u00e9"]]
        path = written(self.folder, whole)
        with open(path, "rb") as file:
            data = file.read().replace(b"\\u00e9", "\u00e9".encode())
        start = data.index(b"\n", data.index(b"good")) + 1
        for end in (start + 1, len(data) - 5, len(data) - 2, data.rindex(b"\xa9")):
            with open(path, "wb") as file:
                file.write(data[:end])
            with self.subTest(data[start:end]):
                viewers, reports = self.played(path)
                self.assertEqual((viewers[0].status, reports), (0, []))
                self.assertEqual(viewers[0].parser.contents(), "good \u00e9")
        # Without its last line feed, a recording is whole, and within one, a line must be JSON.
        with open(path, "wb") as file:
            file.write(data[:-1])
        viewers, _ = self.played(path)
        self.assertEqual(viewers[0].parser.contents(), "good \u00e9 bad \u00e9")
        with open(path, "wb") as file:
            file.write(data[: len(data) - 5] + b"\n")
        self.assertEqual(self.played(path)[0][0].status, 1)

    def test_a_byte_order_mark_is_ignored(self):
        path = written(self.folder, [[0, "o", "good"]])
        with open(path, "rb") as file:
            data = file.read()
        with open(path, "wb") as file:
            file.write(b"\xef\xbb\xbf" + data)
        self.assertEqual(self.played(path)[0][0].parser.contents(), "good")

    def test_files_that_are_no_recordings(self):
        path = os.path.join(self.folder, "wrong.cast")
        for text in (
            b"", b"\n", b"[]", b"{}", b'{"version": 1}', b"\xff\xfe", b"[" * 100000,
            b'{"version": 4}', b'{"version": 2}', b'{"version": 2, "width": 0, "height": 5}',
            b'{"version": 3, "width": 5, "height": 5}', b'{"version": 3, "term": 5}',
            b'{"version": 2, "width": 1001, "height": 5}',
            b'{"version": 2, "width": true, "height": 5}',
        ):
            with open(path, "wb") as file:
                file.write(text)
            with self.subTest(text[:30]), self.assertRaises(BadRecording):
                Cast(path)


@needs_websockets
class Local(Run):
    def start_here(self, *words):
        return Terminal([*SHARE, *words], rows=12, cols=110, env=self.environment, timeout=60)

    def test_the_recording_is_shown_in_the_starting_terminal_until_ctrl_c(self):
        events = [[0, "o", "one\r\n"], [0.2, "r", "30x5"], [0.3, "o", "two"], [60, "o", "three"]]
        path = written(self.folder, events, size=(10, 100))
        with self.start_here("--play", path) as terminal:
            terminal.wait_for("Press Enter to start.")
            terminal.press("enter")
            terminal.wait_for(re.compile("one  .*\ntwo  ", re.DOTALL))
            self.assertTrue(terminal.screen.alternate_screen)
            terminal.send("ignored")
            terminal.send("\x03")
            self.assertEqual(terminal.wait_end(), 130)
            self.assertFalse(terminal.screen.alternate_screen)
            self.assertIn("the recording has ended with status 130", terminal.screen.contents())


@needs_websockets
class Program(Run):
    def test_the_exit_status_and_the_end(self):
        path = written(self.folder, [[0, "o", "a"], [0.1, "o", "b"]])
        self.check(0, "the recording has ended with status 0$", "--play", path)

    def test_a_recording_that_was_just_made(self):
        path = os.path.join(self.folder, "out.cast")
        self.check(0, "status 0", "--record", path, "--", "sh", "-c", "echo word")
        self.check(0, "the recording has ended with status 0$", "--play", path)

    def test_faults(self):
        missing = os.path.join(self.folder, "no.cast")
        self.check(2, "^vt100-share: cannot play: \\S+: No such file or directory\n$",
                   "--play", missing)
        path = os.path.join(self.folder, "wrong.cast")
        with open(path, "w") as file:
            file.write("{}")
        output = "^vt100-share: cannot play: \\S+: not a recording by asciinema, version 2 or 3\n$"
        self.check(2, output, "--play", path)

    def test_options_that_exclude_each_other(self):
        for words in (("--play", "x", "--", "true"), (), ("--play", "x", "--write")):
            self.check(2, "required|require COMMAND", *words)
        self.check(2, "a speed is a number", "--play", "x", "--speed", "0")


if __name__ == "__main__":
    unittest.main()
