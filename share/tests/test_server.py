"""Tests of the connections of vt100-share: which rules viewers must keep, who is left out, and limits."""

import asyncio
import contextlib
import socket
import struct
import subprocess
import time
import unittest
from unittest import mock

from sharing import (
    BINARY,
    COMPRESSED,
    CONTINUATION,
    ECHO,
    PING,
    TEXT,
    Client,
    Closed,
    Compressing,
    Shared,
    frame,
    needs_websockets,
    packed,
    ready,
)
from vt100_share import _connection, _loop, _viewers
from vt100_share._messages import Nonsense


@needs_websockets
class Rules(unittest.TestCase):
    def _ends(self, make, data):
        """Returns the code with which a connection ends after some bytes."""

        async def check():
            async with Shared(ECHO) as shared:
                await ready(shared)
                viewer = await make(shared.port).open(shared.tokens.write)
                await viewer.until("")
                viewer.writer.write(data)
                with self.assertRaises(Closed) as raised:
                    await viewer.until("never")
                await (await shared.viewer()).until("")
                self.assertEqual(shared.share.viewer_count, 1)
                return raised.exception.args

        return asyncio.run(check())

    def test_malformed_and_long_messages_end_the_connection(self):
        for make, data, code in (
            (Compressing, frame(BINARY | COMPRESSED, b"\xff\xff\xff"), 1002),
            (Compressing, frame(BINARY | COMPRESSED, packed(b"i" + bytes(1 << 24))[:16000]), 1009),
            (Compressing, frame(TEXT | COMPRESSED, packed(b"i")), 1008),
            (Compressing, frame(BINARY | COMPRESSED, packed(b"q")), 1008),
            (Client, frame(BINARY | COMPRESSED, packed(b"ix")), 1002),
            (Client, frame(BINARY | 0x20, b"ix"), 1002),
            (Compressing, frame(PING | COMPRESSED, packed(b"x")), 1002),
            (Client, frame(PING, b"x", False), 1002),
        ):
            with self.subTest(data[:12]):
                self.assertEqual(self._ends(make, data), (code,))

    def test_pings_and_fragments_count_as_messages(self):
        # More than a viewer may send while they are read, even on a slow machine.
        begun, count = frame(BINARY, b"i", False), 4000
        for data in (frame(PING, b"") * count, begun + frame(CONTINUATION, b"", False) * count):
            with self.subTest(data[:12]):
                self.assertEqual(self._ends(Client, data), (1008,))

    def test_a_ping_before_the_token_ends_the_connection(self):
        async def check():
            async with Shared(ECHO) as shared:
                viewer = await Client(shared.port).open()
                viewer.writer.write(frame(PING, b""))
                with self.assertRaises(Closed) as raised:
                    await viewer.next()
                self.assertEqual(raised.exception.args, (1008,))

        asyncio.run(check())

    def test_pings_of_who_reads_nothing_end_the_connection(self):
        async def check():
            async with Shared(ECHO) as shared:
                await ready(shared)
                viewer = await shared.viewer()
                await viewer.until("")
                (connection,) = shared.server.connections
                connection.pause_writing()
                viewer.writer.write(frame(PING, b"") * 16)
                await asyncio.sleep(0.2)
                self.assertIn(connection, shared.server.connections)
                viewer.writer.write(frame(PING, b""))
                while not shared.server.turned_away:
                    await asyncio.sleep(0.01)
                connection.resume_writing()
                with self.assertRaises(Closed) as raised:
                    await viewer.until("never")
                self.assertEqual(raised.exception.args, (1008,))

        asyncio.run(check())

    def test_pings_are_counted_anew_when_messages_have_been_read(self):
        async def check():
            async with Shared(ECHO) as shared:
                await ready(shared)
                viewer = await shared.viewer()
                await viewer.until("")
                (connection,) = shared.server.connections
                for _ in range(3):
                    connection.pause_writing()
                    viewer.writer.write(frame(PING, b"") * 16)
                    while connection._pings < 16:
                        await asyncio.sleep(0.01)
                    connection.resume_writing()
                    self.assertEqual(connection._pings, 0)
                self.assertEqual(shared.server.turned_away, 0)
                self.assertEqual(shared.share.viewer_count, 1)

        asyncio.run(check())

    def test_a_flood_is_judged_before_all_of_it_is_parsed(self):
        async def check():
            async with Shared(ECHO) as shared:
                await ready(shared)
                viewer = await shared.viewer()
                await viewer.until("")
                sockets, parsed = shared.server.sockets, []
                events = sockets.events

                def count(protocol, data):
                    parsed.append(len(data))
                    return events(protocol, data)

                with mock.patch.object(sockets, "events", count):
                    viewer.writer.write(frame(PING, b"") * 40000)
                    with self.assertRaises(Closed):
                        await viewer.until("never")
                self.assertLessEqual(max(parsed), 4096)
                self.assertEqual(shared.server.turned_away, 1)

        asyncio.run(check())


@needs_websockets
class LeftOut(unittest.TestCase):
    def test_who_has_not_drained_is_left_out(self):
        async def check():
            async with Shared(ECHO) as shared:
                await ready(shared)
                writer, other = await shared.viewer(shared.tokens.write), await shared.viewer()
                await asyncio.gather(writer.until(""), other.until(""))
                await other.until_true(lambda: other.counts == (2, 1))
                connections = {one._viewer.may_write: one for one in shared.server.connections}
                connections[False].pause_writing()
                for number in range(5):
                    await writer.send(b"i%d" % number)
                    await writer.until(str(number))
                with contextlib.suppress(asyncio.TimeoutError):
                    await asyncio.wait_for(other.until("0"), 0.2)
                self.assertEqual(other.updates, 0)
                connections[False].resume_writing()
                await other.until("01234")
                self.assertEqual(other.updates, 1)

        asyncio.run(check())

    def test_the_room_of_a_viewer(self):
        sent = []
        viewer = _viewers.Viewer(False, sent.append)
        viewer.send_screen(bytes(_viewers.WINDOW), 1)
        self.assertTrue(viewer.has_room)
        viewer.send_screen(b"x", 2)
        self.assertFalse(viewer.has_room)
        viewer.receive(b"a" + struct.pack(">I", 1))
        self.assertTrue(viewer.has_room)
        viewer.is_drained = False
        self.assertFalse(viewer.has_room)


@needs_websockets
class Ends(unittest.TestCase):
    def test_viewers_get_a_close_frame_at_the_end(self):
        async def check():
            async with Shared(ECHO) as shared:
                await ready(shared)
                viewer = await shared.viewer()
                await viewer.until("")
                closing = asyncio.ensure_future(shared.server.close())
                with self.assertRaises(Closed) as raised:
                    await viewer.until("never")
                self.assertEqual(raised.exception.args, (1000,))
                await closing

        asyncio.run(check())


@needs_websockets
class SlowLoop(unittest.TestCase):
    async def _ask(self):
        """Sends a request while the event loop is busy, until the connection could seem silent.
        Returns the beginning of the response."""
        loop, sleep = asyncio.get_running_loop(), asyncio.sleep
        async with Shared(ECHO) as shared:
            with socket.create_connection(("127.0.0.1", shared.port)) as asking:
                asking.setblocking(False)
                request = b"GET / HTTP/1.1\r\nHost: 127.0.0.1:%d\r\n\r\n" % shared.port

                async def slow(delay):
                    await sleep(delay)
                    if delay == 1:  # the connections are checked next
                        asking.send(request)
                        time.sleep(1.2)

                with mock.patch.object(asyncio, "sleep", slow):
                    return await asyncio.wait_for(loop.sock_recv(asking, 15), 10)

    def test_what_has_arrived_is_read_before_a_connection_is_called_silent(self):
        for without in ({}, {"uvloop": None}):
            with mock.patch.dict("sys.modules", without):
                with mock.patch.object(_connection, "STRANGER_PATIENCE", 1):
                    self.assertEqual(_loop.run(self._ask()), b"HTTP/1.1 200 OK")


class Limits(unittest.TestCase):
    def setUp(self):
        self.now = 1000.0
        patch = mock.patch("vt100_share._viewers.time.monotonic", lambda: self.now)
        patch.start()
        self.addCleanup(patch.stop)
        self.viewer = _viewers.Viewer(True, lambda message: None)

    def _count(self, message, is_taken=True):
        """Returns how many messages the viewer may send now. The program takes what is typed, or
        nothing of it."""
        for count in range(10000):
            try:
                self.viewer.receive(message)
            except Nonsense:
                return count
            if is_taken:
                self.viewer.send_taken()

    def test_messages(self):
        self.assertEqual(self._count(b"a\0\0\0\0"), 600)
        self.now += 1.0
        self.assertEqual(self._count(b"a\0\0\0\0"), 199)  # one was refused
        self.now += 3600.0
        self.assertEqual(self._count(b"a\0\0\0\0"), 600)

    def test_bytes(self):
        self.assertEqual(self._count(b"i" + bytes(4095)), 64)
        self.now += 1.0
        self.assertEqual(self._count(b"i" + bytes(4095)), 15)

    def test_input_that_the_program_does_not_take(self):
        self.assertEqual(self._count(b"i" + bytes(4095), is_taken=False), 8)


class Loop(unittest.TestCase):
    async def _wait_for_child(self):
        ended = asyncio.Event()
        _loop.watch_children(ended.set)
        try:
            process = subprocess.Popen(["sh", "-c", "exit 3"])
            await asyncio.wait_for(ended.wait(), 10)
            return process.wait(10)
        finally:
            _loop.ignore_children()

    def test_children_are_watched_with_and_without_uvloop(self):
        self.assertEqual(_loop.run(self._wait_for_child()), 3)
        with mock.patch.dict("sys.modules", uvloop=None):
            self.assertEqual(_loop.run(self._wait_for_child()), 3)


if __name__ == "__main__":
    unittest.main()
