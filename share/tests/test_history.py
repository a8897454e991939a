"""Tests of the rows that vt100-share sends for viewers that scroll back."""

import asyncio
import base64
import json
import os
import random
import shutil
import subprocess
import tempfile
import unittest
from unittest import mock

import vt100
from sharing import (
    MODULE,
    Rows,
    Shared,
    first_difference,
    needs_websockets,
    noise,
    recorded,
    scrollback_of,
)
from test_share import slowly
from vt100_share import _history
from vt100_share._history import CHUNK, History

TESTS = os.path.dirname(os.path.abspath(__file__))

NUMBERED = "".join(f"row {number}\r\n" for number in range(400)).encode()


def lines(seed, count=2000):
    """Returns random lines: some longer than the screen, with wide characters and colors."""
    rng = random.Random(seed)
    words = ("text", "\u65e5\u672c", "e\u0301", "  ", "\x1b[31m", "\x1b[1;44m", "\x1b[m", "\x1b[K", "\t")
    parts = (rng.choice((*words, "\r\n")) for _ in range(count))
    return "".join(parts).encode() + b"\x1b[m\r\n"


class Reader:
    """A viewer of a history, without a server."""

    def __init__(self, history, size):
        self.history, self.number = history, None
        self.rows = Rows(*size)

    def read(self, limit=1 << 30):
        """Reads at most `limit` messages."""
        for _ in range(limit):
            part = self.history.part(self.number)
            if part is None:
                return
            self.rows.take(part.message)
            self.number = part.end


class Histories(unittest.TestCase):
    def _check(self, data, seed, size, limit):
        """Compares the rows of readers with the scrollback of a parser that reads the same."""
        rng = random.Random(seed)
        parser, whole = vt100.Parser(*size, limit), vt100.Parser(*size, limit)
        history = History(limit)
        readers = [Reader(history, size) for _ in range(3)]
        at = 0
        while at < len(data):
            chunk = data[at : at + rng.choice((1, 3, 100, 2000))]
            at += len(chunk)
            for one in (parser, whole):
                one.process(chunk)
            if rng.random() < 0.7:
                history.take(parser)
            for reader in readers[:2]:
                reader.read(rng.choice((0, 0, 1, 9)))
        history.take(parser)
        expected = scrollback_of(whole)
        for reader in readers:
            reader.read()
            found = scrollback_of(reader.rows.parser)
            self.assertIsNone(first_difference(found, expected))
            self.assertEqual(parser.scrollback, 0)
        return readers

    def test_rows_are_those_of_the_scrollback(self):
        for seed, size in enumerate(((24, 80), (5, 7), (1, 10), (2, 2), (50, 132))):
            with self.subTest(size=size):
                self._check(lines(seed), seed, size, 10000)

    def test_the_latest_rows_are_kept(self):
        for limit in (1, 10, 100):
            with self.subTest(limit=limit):
                readers = self._check(NUMBERED, limit, (5, 20), limit)
                self.assertEqual(len(readers[2].rows.parser.history), limit)

    def test_random_output(self):
        # Without glyphs that do not reproduce themselves.
        data = noise(7).replace("\ufe0f".encode(), b"") + b"\x1b[?1049l\x1b[r\x1b[9Hend"
        self._check(data, 7, (9, 30), 10000)
        self._check(recorded() + b"\x1b[?1049l", 8, (24, 80), 500)

    def test_erased_rows_are_discarded(self):
        long = b"\x1b[" + 40 * b"0" + b"3J"
        others = b"\x1b[3\x07J", b"\x1b]0;title\x1bc"
        for erasure in (b"\x1b[3J", long, b"\x1b[3;1J", b"\x1b[?3J", b"\x1bc", *others):
            for cut in range(len(erasure)):
                parser = vt100.Parser(4, 20, 100)
                history = History(100)
                reader = Reader(history, (4, 20))
                for data in (NUMBERED[:200], erasure[:cut], erasure[cut:], b"", b"new\r\n" * 5):
                    parser.process(data)
                    history.take(parser)
                    reader.read()
                late = Reader(history, (4, 20))
                late.read()
                for one in (reader, late):
                    # The rows that were still on the screen may follow.
                    self.assertNotIn("row 9", one.rows.parser.history.rows())
                    self.assertEqual(one.rows.parser.history.rows()[-1], "new")
                self.assertEqual((reader.rows.losses, late.rows.losses), (1, 0))

    def test_other_sequences_discard_nothing(self):
        parser, history = vt100.Parser(4, 20, 100), History(100)
        for data in (NUMBERED[:200], b"\x1b[2J\x1b[33J\x1b[;3J\x1b[>3J\x1b[c", b"new\r\n" * 5):
            parser.process(data)
            history.take(parser)
        reader = Reader(history, (4, 20))
        reader.read()
        self.assertEqual(reader.rows.parser.history.rows()[0], "row 0")

    def test_rows_of_the_alternate_screen_are_not_kept(self):
        parser = vt100.Parser(4, 20, 100)
        history = History(100)
        for data in (NUMBERED[:100], b"\x1b[?1049h" + b"other\r\n" * 9):
            parser.process(data)
            history.take(parser)
        reader = Reader(history, (4, 20))
        reader.read()
        self.assertTrue(reader.rows.parser.history.rows()[-1].startswith("row "))
        parser.process(b"\x1b[?1049l")
        history.take(parser)
        reader.read()
        self.assertNotIn("other", reader.rows.parser.history.rows())

    def test_another_size_discards_the_rows(self):
        history = History(100)
        for cols in (20, 10):
            parser = vt100.Parser(4, cols, 100)
            parser.process(NUMBERED[:100])
            history.take(parser)
        reader = Reader(history, (4, 10))
        reader.read()
        self.assertEqual(reader.rows.parser.history.rows()[0], "row 0")
        self.assertEqual(reader.rows.losses, 0)

    def test_nothing_is_kept_without_a_limit(self):
        history, parser = History(0), vt100.Parser(4, 20)
        parser.process(NUMBERED + b"\x1b[3J")
        history.take(parser)
        self.assertEqual((history.end, history.part(None)), (0, None))

    def test_messages_are_bounded(self):
        parser = vt100.Parser(24, 80, 1000)
        history = History(1000)
        parser.process(b"\x1b[31mx\x1b[m " * 30000)
        history.take(parser)
        number, longest = None, 0
        while history.part(number) is not None:
            part = history.part(number)
            number, longest = part.end, max(longest, len(part.message))
        self.assertGreater(longest, CHUNK)
        self.assertLess(longest, CHUNK + 2000)


@needs_websockets
class Sent(unittest.TestCase):
    async def _late(self, shared, delay):
        await asyncio.sleep(delay)
        return await (await shared.viewer()).until_end()

    async def _slow(self, shared):
        viewer = await shared.viewer()
        while viewer.status is None:
            await asyncio.sleep(0.02)
            await viewer.next()
        return viewer

    def test_every_viewer_ends_with_the_same_rows(self):
        data = lines(3, 6000)
        whole = vt100.Parser(24, 80, 500)
        whole.process(data)

        async def check(folder):
            async with Shared(slowly(data, folder), scrollback=500) as shared:
                viewers = await asyncio.gather(
                    self._slow(shared), *(self._late(shared, delay / 10) for delay in range(5))
                )
                for viewer in viewers:
                    self.assertEqual(viewer.parser.state_formatted(), shared.contents)
                    found, expected = scrollback_of(viewer.rows.parser), scrollback_of(whole)
                    self.assertIsNone(first_difference(found, expected))

        with tempfile.TemporaryDirectory() as folder:
            asyncio.run(check(folder))

    @unittest.skipUnless(shutil.which("node"), "there is no node")
    @unittest.skipUnless(os.path.exists(MODULE), "there is no vt100.wasm")
    def test_the_page_reads_the_same(self):
        async def check(folder, data):
            async with Shared(slowly(data, folder), scrollback=500) as shared:
                viewers = await asyncio.gather(
                    self._slow(shared), *(self._late(shared, delay / 5) for delay in range(3))
                )
                return [viewer.received for viewer in viewers], shared.contents

        # Some glyphs do not reproduce themselves: the updates after them are redraws. A reply to a
        # query would be echoed.
        mixed = noise(5).replace(b"\x1b[6n", b"") + b"\x1bc" + lines(5, 3000)
        for data in (lines(4, 6000), mixed, recorded()):
            data += b"\x1b[?1049l\x1b[r\x1b[9Hend\x1b[J"
            whole = vt100.Parser(24, 80, 500)
            whole.process(data)
            with tempfile.TemporaryDirectory() as folder:
                received, contents = asyncio.run(check(folder, data))
            self.assertGreater(len(received), 3)
            for messages in received:
                encoded = [base64.b64encode(message).decode() for message in messages]
                rows = whole.history.rows()
                task = json.dumps({"messages": encoded, "contents": contents, "rows": rows})
                script = ["node", os.path.join(TESTS, "screen.mjs"), MODULE]
                subprocess.run(script, input=task.encode(), check=True, timeout=60)

    def test_all_rows_come_before_the_end(self):
        async def check():
            async with Shared(["sh", "-c", "read a; seq 3000"], scrollback=5000) as shared:
                viewer = await shared.viewer(shared.tokens.write)
                await viewer.until("")
                await viewer.send(b"i\r")
                await viewer.until_end()
                # The first row is that of the line that was typed.
                rows = viewer.rows.parser.history.rows()
                self.assertEqual((rows[-1], rows[1:3]), ("2977", ["1", "2"]))

        asyncio.run(check())

    def test_who_joins_after_the_end_of_the_program_gets_all_rows(self):
        async def check():
            async with Shared(["seq", "3000"], scrollback=5000) as shared:
                # The server waits for this viewer, which never gets all rows.
                (await shared.viewer()).acknowledges = False
                while not shared.share.is_final:
                    await asyncio.sleep(0.01)
                viewer = await (await shared.viewer()).until_end()
                rows = viewer.rows.parser.history.rows()
                self.assertEqual(rows, [str(number) for number in range(1, 2978)])

        with mock.patch("vt100_share._share._FAREWELL", 15.0):
            asyncio.run(check())

    def test_there_are_no_rows_unless_they_are_requested(self):
        async def check():
            async with Shared(["seq", "1000"]) as shared:
                viewer = await (await shared.viewer()).until_end()
                self.assertIsNone(viewer.rows)

        asyncio.run(check())

    def test_who_acknowledges_nothing_gets_no_rows(self):
        async def check():
            script = "seq 100000 110000; read a"
            async with Shared(["sh", "-c", script], scrollback=10000) as shared:
                await (await shared.viewer()).until("110000")
                viewer = await shared.viewer()
                viewer.acknowledges = False
                with self.assertRaises(asyncio.TimeoutError):
                    await asyncio.wait_for(viewer.until("never"), 1)
                self.assertLess(viewer.read, 8192 + CHUNK + 4000)
                viewer.acknowledges = True
                await viewer.acknowledge()
                await viewer.until("110000")
                while viewer.rows.parser.history.rows()[-1] != "109977":
                    await viewer.next()

        asyncio.run(check())

    def test_rows_come_at_a_limited_rate(self):
        async def check():
            async with Shared(["sh", "-c", "seq 100000 110000; sleep 9"], scrollback=10000) as shared:
                viewer = await shared.viewer()
                await viewer.until("110000")
                before = viewer.read
                start = asyncio.get_running_loop().time()
                while viewer.read < before + 40000:
                    await viewer.next()
                elapsed = asyncio.get_running_loop().time() - start
                self.assertGreater(elapsed, 40000 / CHUNK * _history.GAP * 0.7)

        asyncio.run(check())


if __name__ == "__main__":
    unittest.main()
