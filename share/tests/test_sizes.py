"""Tests of what viewers see when the size of the shared terminal changes: on the screen, and of the
rows that have scrolled off."""

import asyncio
import base64
import contextlib
import json
import os
import random
import re
import shutil
import subprocess
import sys
import tempfile
import unittest

from relaying import Published, RedisServer, Relayed, needs_redis, screen_of, until, within
from sharing import MODULE, Rows, Shared, needs_websockets, noise
from vt100_share import _messages as messages
from vt100_share._cohort import Cohort

TESTS = os.path.dirname(os.path.abspath(__file__))

#: Writes numbered lines, some of them long, until a line is typed; then the rest.
LINES = """
import os, select
os.system("stty -echo")
number = 0
while not select.select([0], [], [], 0.01)[0]:
    number += 1
    print(number, "-" * (60 if number % 7 == 0 else 0), flush=True)
input()
print(end="end", flush=True)
input()
"""


def numbers(rows):
    """Returns the numbers at the beginning of rows, without rows that continue others."""
    found = [re.match(r"[0-9]+", row) for row in rows]
    return [int(one[0]) for one in found if one]


async def resize_at_random(share, rng, count):
    """Changes the size some times, also more often than there are rounds."""
    for _ in range(count):
        share.resize(rng.randrange(2, 40), rng.randrange(5, 120))
        await asyncio.sleep(rng.choice((0, 0.005, 0.03, 0.1)))
    share.resize(12, 50)
    await until(lambda: share.cohort.screen.size == (12, 50))


class Viewers:
    """Viewers of every kind, until the program has ended."""

    def __init__(self, make):
        self.make = make

    async def late(self, delay):
        await asyncio.sleep(delay)
        return await (await self.make()).until_end()

    async def slow(self):
        viewer = await self.make()
        while viewer.status is None:
            await asyncio.sleep(0.1)
            await viewer.next()
        return viewer

    async def silent(self):
        """Acknowledges nothing for a while."""
        viewer = await self.make()
        viewer.acknowledges = False
        with contextlib.suppress(asyncio.TimeoutError):
            await asyncio.wait_for(viewer.until_end(), 0.7)
        viewer.acknowledges = True
        await viewer.acknowledge()
        return await viewer.until_end()

    def all(self, rng):
        late = [self.late(delay) for delay in [0, *(rng.random() * 1.5 for _ in range(6))]]
        return [*late, self.slow(), self.silent()]


def rows_of(viewer):
    """Returns the text of the rows that have scrolled off, and of those on the screen."""
    return viewer.rows.parser.history.rows() + viewer.parser.rows()


@needs_websockets
class Random(unittest.TestCase):
    def shared(self, seed, command, **how):
        async def check():
            rng = random.Random(seed)
            async with Shared(command, (24, 80), **how) as shared:
                viewers = Viewers(shared.viewer)
                tasks = [asyncio.ensure_future(one) for one in viewers.all(rng)]
                await resize_at_random(shared.share, rng, 40)
                shared.share.type(b"\r")
                await until(lambda: "end" in shared.share.cohort.screen.contents())
                await resize_at_random(shared.share, rng, 5)
                shared.share.type(b"\r")
                return await asyncio.gather(*tasks), shared.contents, shared.share.cohort

        return asyncio.run(within(120, check()))

    def test_every_viewer_ends_with_the_screen_of_the_server(self):
        writes = "import sys, time\n" + (
            "data = open(sys.argv[1], 'rb').read()\n"
            "for at in range(0, len(data), 300):\n"
            "    sys.stdout.buffer.write(data[at : at + 300])\n"
            "    sys.stdout.flush()\n"
            "    time.sleep(0.02)\n"
            "input(); print('\\033c\\033[H\\033[?1049lend', end='', flush=True); input()\n"
        )
        for seed in (1, 2):
            with self.subTest(seed), tempfile.NamedTemporaryFile() as file:
                file.write(noise(seed, 30000).replace(b"\x1b[6n", b""))
                file.flush()
                command = ["python3", "-c", writes, file.name]
                viewers, contents, _ = self.shared(
                    seed, ["sh", "-c", 'stty -echo; exec "$@"', "sh", *command]
                )
                for viewer in viewers:
                    self.assertEqual(viewer.parser.state_formatted(), contents)
                    self.assertEqual(viewer.parser.size, (12, 50))

    def test_no_row_is_missing_or_cut_off(self):
        for seed in (3, 4):
            viewers, contents, cohort = self.shared(
                seed, [sys.executable, "-c", LINES], scrollback=10000
            )
            expected = None
            for viewer in viewers:
                self.assertEqual(viewer.parser.state_formatted(), contents)
                rows = rows_of(viewer)
                found = numbers(rows)
                with self.subTest(seed):
                    self.assertEqual(found, list(range(1, found[-1] + 1)))
                    self.assertEqual(viewer.rows.losses, 0)
                expected = expected or rows
                self.assertEqual(rows, expected)

    @unittest.skipUnless(shutil.which("node"), "there is no node")
    @unittest.skipUnless(os.path.exists(MODULE), "there is no vt100.wasm")
    def test_the_page_reads_the_same(self):
        viewers, contents, _ = self.shared(5, [sys.executable, "-c", LINES], scrollback=10000)
        for viewer in viewers:
            encoded = [base64.b64encode(message).decode() for message in viewer.received]
            rows = rows_of(viewer)[:-12]
            task = json.dumps({"messages": encoded, "contents": contents, "rows": rows})
            script = ["node", os.path.join(TESTS, "screen.mjs"), MODULE]
            subprocess.run(script, input=task.encode(), check=True, timeout=120)


class Kept(unittest.TestCase):
    """The rows that scroll off because of a size."""

    def rows(self, data, size, *sizes):
        cohort = Cohort(*size, scrollback=100)
        cohort.process(data)
        for rows, cols in sizes:
            cohort.resize(rows, cols)
        return cohort.history.after(None, 1 << 20)[1]

    def test_rows_scroll_off_before_columns_are_cut_off(self):
        data = "".join(f"{number} {'x' * 30}\r\n" for number in range(5)).encode()
        rows = self.rows(data, (6, 40), (2, 10))
        self.assertEqual([row.cols for row in rows], [40] * 4)
        self.assertEqual([row.text for row in rows], data.splitlines(keepends=True)[:4])

    def test_rows_that_were_wrapped_are_rows_of_a_wider_screen(self):
        # Three lines of two rows each, of which the first is wrapped.
        data = b"".join(b"%d" % number * 50 + b"\r\n" for number in (1, 2, 3))
        for size in ((2, 60), (2, 40), (2, 20)):
            rows = self.rows(data, (7, 40), size)
            self.assertEqual(len(rows), 5)
            reader = Rows(2, 60)
            for row in rows:
                reader.take(messages.history(0 if reader.end is None else reader.end, [row]))
            found = "".join(reader.parser.history.rows())
            self.assertEqual(found, "1" * 50 + "2" * 50 + "3" * 40)

    def test_rows_that_scroll_off_while_the_alternate_screen_is_displayed(self):
        # The first row is wrapped, and blank where the screen is cut off.
        cohort = Cohort(5, 40, scrollback=100)
        cohort.process(b"ab\x1b[30G" + b"x" * 20 + b"\r\n1\r\n2\r\n\x1b[?1049h")
        cohort.resize(2, 10)
        cohort.process(b"\x1b[?1049l")
        cohort.advance()
        rows, reader = cohort.history.after(None, 1 << 20)[1], Rows(2, 10)
        self.assertGreater(len(rows), 2)
        for row in rows:
            reader.take(messages.history(reader.end or 0, [row]))
        self.assertEqual(reader.parser.history.rows()[0], "ab")

    def test_rows_of_another_width_are_in_messages_of_their_own(self):
        cohort = Cohort(3, 40, scrollback=100)
        cohort.process(b"one\r\ntwo\r\nthree\r\nfour\r\n")
        cohort.resize(3, 20)
        cohort.process(b"five\r\n")
        cohort.advance()
        first = cohort.history.part(None)
        second = cohort.history.part(first.end)
        self.assertEqual(
            [part.message[5:9] for part in (first, second)], [b"\0\2\0\x28", b"\0\1\0\x14"]
        )
        self.assertEqual(second.message[9:], b"three\r\n")
        self.assertIsNone(cohort.history.part(second.end))
        self.assertEqual(cohort.history.newest(None).message[5:], second.message[5:])


@needs_websockets
class Rounds(unittest.TestCase):
    def test_the_newest_size_is_applied_with_a_round(self):
        async def check():
            async with Shared(["sh", "-c", "sleep 60"], (24, 80)) as shared:
                share, sizes = shared.share, []
                await (await shared.viewer()).until("")
                share.listen(lambda: sizes.append(share.cohort.screen.size))
                self.assertFalse(share.resize(24, 80))
                for rows in range(1, 100):
                    self.assertTrue(share.resize(rows, 90))
                    self.assertFalse(share.resize(rows, 90))
                await until(lambda: share.cohort.screen.size == (99, 90))
                self.assertLess(len(set(sizes)), 4)
                self.assertEqual(os.get_terminal_size(shared.program.file), (90, 99))

        asyncio.run(check())

    def test_a_size_that_is_changed_back_changes_nothing(self):
        async def check():
            async with Shared(["sh", "-c", "sleep 60"], (24, 80)) as shared:
                version = shared.share.cohort.version
                self.assertTrue(shared.share.resize(10, 20))
                self.assertTrue(shared.share.resize(24, 80))
                await asyncio.sleep(0.2)
                self.assertEqual(shared.share.cohort.version, version)

        asyncio.run(check())

    def test_after_the_end_the_size_stays(self):
        async def check():
            async with Shared(["true"], (24, 80)) as shared:
                await until(lambda: shared.share.status is not None)
                self.assertFalse(shared.share.resize(10, 20))

        asyncio.run(check())


@needs_redis
class Relays(unittest.TestCase):
    def test_viewers_of_relays_follow(self):
        async def check(server):
            rng = random.Random(6)
            command = [sys.executable, "-c", LINES]
            async with Published(server, command, scrollback=10000) as shared:
                async with Relayed(server) as relay:
                    viewers = Viewers(relay.viewer)
                    tasks = [asyncio.ensure_future(one) for one in viewers.all(rng)]
                    await resize_at_random(shared.share, rng, 40)
                    shared.share.type(b"\r")
                    await until(lambda: "end" in shared.share.cohort.screen.contents())
                    await asyncio.sleep(0.5)
                    shared.share.type(b"\r")
                    found = await asyncio.gather(*tasks)
                    expected = screen_of(shared.share.cohort.parser)
                    for viewer in found:
                        self.assertTrue(screen_of(viewer.parser) == expected)
                        rows = numbers(rows_of(viewer))
                        self.assertEqual(rows, list(range(1, rows[-1] + 1)))

        with RedisServer() as server:
            asyncio.run(within(120, check(server)))


if __name__ == "__main__":
    unittest.main()
