"""Tests of how vt100-share accepts connections: a few at a time, and not more than it has room for."""

import asyncio
import contextlib
import errno
import os
import resource
import socket
import subprocess
import sys
import tempfile
import time
import unittest
from unittest import mock

from sharing import Client, Closed, Shared, needs_websockets, python_path, slow
from vt100_share import _connection, _listening, _server
from vt100_share._listening import Listener, address_of
from vt100_share._site import Site

CAT = ["cat"]
REQUEST = b"GET / HTTP/1.1\r\nHost: 127.0.0.1\r\n\r\n"
BIG = bytes(range(256)) * 40000


async def connected(port):
    """Returns the streams of a connection, which the test closes."""
    reader, writer = await asyncio.open_connection("127.0.0.1", port)
    Client.writers.append(writer)
    return reader, writer


async def until(condition):
    while not condition():
        await asyncio.sleep(0.01)


@needs_websockets
class Room(unittest.TestCase):
    def test_the_oldest_stranger_goes_when_another_one_comes(self):
        async def check():
            async with Shared(CAT) as shared:
                idle = [await connected(shared.port) for _ in range(3)]
                await until(lambda: len(shared.server.connections) == 3)
                reader, writer = await connected(shared.port)
                self.assertEqual(await asyncio.wait_for(idle[0][0].read(), 10), b"")
                writer.write(REQUEST)
                response = await asyncio.wait_for(reader.read(), 10)
                self.assertTrue(response.startswith(b"HTTP/1.1 200 "))
                for one in idle[1:]:
                    one[1].write(REQUEST)
                    self.assertTrue((await one[0].read()).startswith(b"HTTP/1.1 200 "))
                self.assertEqual(shared.server.turned_away, 1)

        with mock.patch.multiple(_server, _MAX_STRANGERS=3, _STAY=0.01):
            asyncio.run(check())

    def test_each_stranger_may_stay_for_a_moment(self):
        async def check():
            async with Shared(CAT) as shared:
                for _ in range(3):
                    await connected(shared.port)
                start = time.monotonic()
                reader, writer = await connected(shared.port)
                writer.write(REQUEST)
                self.assertTrue((await reader.read()).startswith(b"HTTP/1.1 200 "))
                self.assertGreater(time.monotonic() - start, 0.3)

        with mock.patch.object(_server, "_MAX_STRANGERS", 3):
            asyncio.run(check())

    def test_a_stranger_without_a_token_is_not_a_viewer(self):
        async def check():
            async with Shared(CAT) as shared:
                waiting = await Client(shared.port).open()
                viewer = await shared.viewer()
                await viewer.until("")
                idle = await connected(shared.port)
                await asyncio.wait_for(until(lambda: len(shared.server.connections) == 2), 10)
                with self.assertRaises(Closed):
                    await waiting.next()
                await (await shared.viewer()).until("")
                self.assertEqual(await asyncio.wait_for(idle[0].read(), 10), b"")

        with mock.patch.multiple(_server, _MAX_STRANGERS=1, _STAY=0.01):
            asyncio.run(check())

    def test_the_oldest_reader_goes_when_another_one_comes(self):
        async def check():
            async with Shared(CAT) as shared:
                shared.server.site = Site({"/": ("text/plain", BIG)}, "127.0.0.1", [])
                readers = []
                for number in range(4):
                    readers.append(await slow(shared.port))
                    readers[-1][1].write(REQUEST)
                    await readers[-1][0].readuntil(b"\r\n\r\n")
                await until(lambda: len(shared.server.connections) == 3)
                self.assertEqual(shared.server.turned_away, 1)
                with contextlib.suppress(ConnectionError):
                    self.assertLess(len(await readers[0][0].read()), len(BIG))
                self.assertEqual(len(shared.server.connections), 3)

        with mock.patch.object(_server, "_MAX_READERS", 3):
            asyncio.run(check())

    def test_viewers_take_no_room(self):
        async def check():
            async with Shared(CAT) as shared:
                viewers = []
                for _ in range(9):
                    viewers.append(await shared.viewer())
                    await asyncio.wait_for(viewers[-1].until(""), 10)
                self.assertEqual(shared.share.viewer_count, 9)

        with mock.patch.object(_server, "_MAX_STRANGERS", 3):
            asyncio.run(check())

    def test_all_who_come_at_once_become_viewers(self):
        async def one(shared):
            viewer = await shared.viewer()
            await asyncio.wait_for(viewer.until(""), 50)

        async def check(count):
            async with Shared(CAT, viewers=count) as shared:
                await asyncio.gather(*(one(shared) for _ in range(count)))
                self.assertEqual(shared.share.viewer_count, count)

        # Few viewers have the time of many, since a slow machine needs it.
        patience = mock.patch.object(_connection, "STRANGER_PATIENCE", 60)
        with patience, mock.patch.multiple(_server, _MAX_STRANGERS=40, _STAY=3):
            asyncio.run(check(50))

    def test_nobody_is_accepted_after_the_end(self):
        async def check():
            async with Shared(CAT) as shared:
                await shared.server.close()
                with self.assertRaises(OSError):
                    await connected(shared.port)

        asyncio.run(check())


class Files(unittest.TestCase):
    """How many files the process may open."""

    def _room(self, soft, hard, viewers):
        """Returns the room for viewers, and the limits then."""
        limits = soft, hard
        with mock.patch.object(_server.resource, "getrlimit", return_value=limits):
            with mock.patch.object(_server.resource, "setrlimit") as set_limits:
                room = _server.room_for(viewers)
        if set_limits.called:
            (kind, limits), _ = set_limits.call_args
            self.assertEqual(kind, resource.RLIMIT_NOFILE)
        return room, limits

    def test_the_soft_limit_is_raised_as_far_as_viewers_need(self):
        none = resource.RLIM_INFINITY
        for soft, hard, viewers, expected in (
            (1024, 1048576, 1000, (1000, (1576, 1048576))),
            (1024, none, 1000, (1000, (1576, none))),
            (1024, 4096, 400, (400, (1024, 4096))),
            (1024, 2048, 5000, (2048 - 576, (2048, 2048))),
            (256, 256, 5000, (64, (256, 256))),
            (none, none, 5000, (5000, (none, none))),
        ):
            with self.subTest(soft=soft, hard=hard, viewers=viewers):
                self.assertEqual(self._room(soft, hard, viewers), expected)

    @needs_websockets
    def test_fewer_viewers_than_wanted_are_reported_and_the_program_has_its_own_limit(self):
        command = "ulimit -Sn 800; ulimit -Hn 900; exec \"$@\""
        share = [sys.executable, "-m", "vt100_share", "--headless", "--viewers", "5000"]
        with tempfile.TemporaryDirectory() as folder:
            open(f"{folder}/vt100.wasm", "wb").close()
            done = subprocess.run(
                ["bash", "-c", command, "bash", *share, "--record", f"{folder}/cast", "--", "bash",
                 "-c", "ulimit -n"],
                env={**os.environ, "PYTHONPATH": python_path(), "VT100_PAGE": folder},
                stdin=subprocess.DEVNULL, stdout=subprocess.PIPE, stderr=subprocess.PIPE, timeout=60,
            )
            with open(f"{folder}/cast", encoding="utf-8") as file:
                self.assertIn('"800\\r\\n"', file.read())
        said = done.stderr.decode().splitlines()
        self.assertRegex(said[0], r"^vt100-share: at most 324 viewers: [^\n]*\(ulimit -n\)$")
        self.assertEqual(said[1:], ["vt100-share: the program has ended with status 0"])


class Listening(unittest.TestCase):
    def _run(self, check):
        async def run():
            accepted, self.reports = [], []
            self.delay = 0.0
            listener = Listener(accepted.append, lambda: self.delay, self.reports.append)
            try:
                await check(listener, accepted)
            finally:
                listener.close()
                for one in accepted:
                    one.close()

        asyncio.run(run())

    async def _until(self, condition):
        for _ in range(500):
            if condition():
                return
            await asyncio.sleep(0.01)
        self.fail("waited in vain")

    def test_a_few_are_accepted_at_a_time(self):
        async def check(listener, accepted):
            port = await listener.start("127.0.0.1", 0)
            writers = []
            with mock.patch.object(listener, "_count", lambda: 0):
                for _ in range(_listening._AT_ONCE + 5):
                    writers.append((await asyncio.open_connection("127.0.0.1", port))[1])
            counts = []
            listener._accept = lambda one: (accepted.append(one), counts.append(turn))
            turn = 0
            while len(accepted) < len(writers):
                await asyncio.sleep(0)
                turn += 1
            self.assertLessEqual(max(map(counts.count, counts)), _listening._AT_ONCE)
            for one in writers:
                one.close()

        self._run(check)

    def test_more_are_accepted_after_a_long_turn_of_the_loop(self):
        async def check(listener, accepted):
            now = 100.0
            with mock.patch.object(listener, "_loop") as loop:
                loop.time.side_effect = lambda: now
                waiting = mock.Mock()
                waiting.accept.side_effect = lambda: (mock.Mock(), None)
                for passed, count in ((9, 16), (0.02, 16), (0.125, 62), (0.5, 250), (9, 256), (0, 16)):
                    now += passed
                    listener._take(waiting)
                    self.assertEqual(len(accepted), count)
                    accepted.clear()
                waiting.accept.side_effect = BlockingIOError
                listener._take(waiting)
                waiting.accept.side_effect = lambda: (mock.Mock(), None)
                now += 9
                listener._take(waiting)
                self.assertEqual(len(accepted), 16)

        self._run(check)

    def test_it_listens_again_after_the_system_has_refused(self):
        async def check(listener, accepted):
            port = await listener.start("127.0.0.1", 0)
            full = mock.Mock()
            full.accept.side_effect = OSError(errno.EMFILE, "too many open files")
            listener._take(full)
            _, writer = await asyncio.open_connection("127.0.0.1", port)
            await asyncio.sleep(0.05)
            self.assertEqual(accepted, [])
            await self._until(lambda: accepted)
            writer.close()
            listener._take(full)
            self.assertEqual(self.reports, ["connections have to wait: too many open files"])

        with mock.patch.object(_listening, "_PAUSE", 0.3):
            self._run(check)

    def test_all_addresses_of_a_host_have_the_same_port(self):
        async def check(listener, accepted):
            port = await listener.start("localhost", 0)
            for one in listener._sockets:
                self.assertEqual(one.getsockname()[1], port)
                _, writer = await asyncio.open_connection(*one.getsockname()[:2])
                await self._until(lambda: accepted)
                accepted.pop().close()
                writer.close()

        self._run(check)

    def test_nothing_is_accepted_during_a_delay(self):
        async def check(listener, accepted):
            self.delay = 0.2
            port = await listener.start("127.0.0.1", 0)
            _, writer = await asyncio.open_connection("127.0.0.1", port)
            await asyncio.sleep(0.1)
            self.assertEqual(accepted, [])
            self.delay = 0.0
            await self._until(lambda: accepted)
            writer.close()

        self._run(check)

    def test_an_address_of_all_addresses(self):
        for host, loopback in (("0.0.0.0", "127.0.0.1"), ("::", "::1")):
            found = address_of(host)
            self.assertNotEqual(found, host)
            socket.getaddrinfo(found, 80, flags=socket.AI_NUMERICHOST)
            with mock.patch.object(_listening.socket, "socket", side_effect=OSError):
                self.assertEqual(address_of(host), loopback)
        self.assertEqual(address_of("box.example"), "box.example")

    def test_a_port_in_use(self):
        async def check(listener, accepted):
            port = await listener.start("127.0.0.1", 0)
            other = Listener(accepted.append, lambda: 0.0, print)
            with self.assertRaises(OSError):
                await other.start("127.0.0.1", port)
            self.assertEqual(other._sockets, [])

        self._run(check)


if __name__ == "__main__":
    unittest.main()
