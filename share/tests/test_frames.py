"""Tests of how vt100-share reads and writes the frames of WebSockets."""

import asyncio
import itertools
import logging
import struct
import unittest
from unittest import mock

from sharing import (
    BINARY,
    CLOSE,
    COMPRESSED,
    CONTINUATION,
    ECHO,
    PING,
    PONG,
    TEXT,
    Client,
    Compressing,
    Shared,
    frame,
    needs_websockets,
    packed,
    ready,
)
from vt100_share import _connection
from vt100_share._sockets import NoLibrary, WebSockets


@needs_websockets
class Frames(unittest.TestCase):
    def _typed(self, *chunks, others=(), size=(24, 80)):
        """Returns what the program has read after a viewer has sent chunks, and another one whole
        messages in between. Each message ends with `;`."""

        async def check():
            async with Shared(ECHO, size) as shared:
                await ready(shared)
                first, second = [await shared.viewer(shared.tokens.write) for _ in range(2)]
                await asyncio.gather(first.until(""), second.until(""))
                for number, chunk in enumerate(chunks):
                    first.writer.write(chunk)
                    await first.writer.drain()
                    if number < len(others):
                        await asyncio.sleep(0.02)
                        await second.send(b"i" + others[number])
                        await second.until(others[number].decode())
                await first.send(b"i.")
                await first.until(".")
                self.assertEqual(shared.share.viewer_count, 2)
                return first.parser.contents()

        return asyncio.run(check())

    def test_a_frame_may_arrive_in_any_chunks(self):
        chunks, others, expected = [], [], ""
        data = frame(BINARY, b"i<one>")
        for at in range(1, len(data)):
            chunks += data[:at], data[at:]
            others += b"(%d)" % at, b"[%d]" % at
            expected += f"({at})<one>[{at}]"
        self.assertEqual(self._typed(*chunks, others=others, size=(24, 200)), expected + ".")

    def test_a_request_may_arrive_in_chunks_and_with_the_first_frames(self):
        async def check():
            async with Shared(ECHO) as shared:
                await ready(shared)
                viewer = Client(shared.port)
                streams = await asyncio.open_connection("127.0.0.1", shared.port)
                viewer.reader, viewer.writer = streams
                Client.writers.append(viewer.writer)
                viewer.protocol.send_request(viewer.protocol.connect())
                request = b"".join(viewer.protocol.data_to_send())
                token = frame(BINARY, b"t" + shared.tokens.write.encode())
                data = request + token + frame(BINARY, b"iword")
                cut = len(request) - 2
                viewer.writer.write(data[:cut])
                await asyncio.sleep(0.05)
                viewer.writer.write(data[cut:])
                await viewer.until("word")

        asyncio.run(check())

    def test_frames_may_arrive_together(self):
        data = b"".join(frame(BINARY, b"i%d" % number) for number in range(10))
        whole = self._typed(data[:50], data[50:], others=[b"a", b"b"])
        self.assertEqual(whole, "012345a6789b.")

    def test_a_message_may_have_fragments_with_a_ping_in_between(self):
        first, second = frame(BINARY, b"i<o", False), frame(CONTINUATION, b"ne>")
        ping = frame(PING, b"?")
        self.assertEqual(self._typed(first, ping, second, others=[b"a", b"b"]), "ab<one>.")

    def test_lengths_may_be_longer_than_necessary(self):
        long = struct.pack(">BH", 0xFE, 2), struct.pack(">BQ", 0xFF, 2)
        data = frame(BINARY, b"ix", length=long[0]) + frame(BINARY, b"iy", length=long[1])
        whole = self._typed(data[:3], data[3:12], data[12:], others=[b"a", b"b", b"c"])
        self.assertEqual(whole, "axbyc.")

    def test_viewers_get_the_same_frame(self):
        async def check():
            async with Shared(ECHO) as shared:
                await ready(shared)
                viewers = [await shared.viewer(shared.tokens.write) for _ in range(6)]
                await asyncio.gather(*(viewer.until("") for viewer in viewers))
                sockets = shared.server.sockets
                with mock.patch.object(sockets, "_frame", wraps=sockets._frame) as made:
                    await viewers[0].send(b"iword")
                    await asyncio.gather(*(viewer.until("word") for viewer in viewers))
                made.assert_called_once_with(b"Dword", False)

        asyncio.run(check())

    def test_messages_after_a_ping_are_read_as_before(self):
        async def check():
            async with Shared(ECHO) as shared:
                await ready(shared)
                viewer = await shared.viewer(shared.tokens.write)
                await viewer.until("")
                viewer.writer.write(frame(PING, b"?") + frame(BINARY, b"i<one>") + frame(PONG, b""))
                await viewer.until("<one>")
                (connection,) = shared.server.connections
                self.assertTrue(connection._is_plain)
                data = frame(BINARY, b"i<two>")
                viewer.writer.write(data[:4])
                while connection._is_plain:
                    await asyncio.sleep(0.01)
                viewer.writer.write(data[4:] + frame(BINARY, b"i<three>"))
                await viewer.until("<one><two><three>")

        asyncio.run(check())


@needs_websockets
class Compression(unittest.TestCase):
    def test_viewers_with_and_without_compression_see_the_same(self):
        async def check():
            async with Shared(ECHO) as shared:
                await ready(shared)
                token = shared.tokens.write
                viewers = [await Compressing(shared.port).open(token) for _ in range(3)]
                viewers.append(await shared.viewer())
                for _ in range(5):
                    await viewers[0].send(b"i" + b"word " * 100)
                await viewers[0].send(b"iend")
                await asyncio.gather(*(viewer.until("end") for viewer in viewers))
                for viewer in viewers:
                    self.assertEqual(viewer.parser.state_formatted(), shared.contents)
                for viewer in viewers[:3]:
                    (extension,) = viewer.protocol.extensions
                    self.assertTrue(extension.local_no_context_takeover)
                    self.assertTrue(extension.remote_no_context_takeover)

        asyncio.run(check())

    def test_frames_are_short(self):
        sockets, message = WebSockets(), b"D" + b"word " * 100
        self.assertLess(len(sockets.frame(message, True)), 40)
        self.assertEqual(sockets.frame(message, False), b"\x82\x7e\x01\xf5" + message)
        self.assertEqual(sockets.frame(b"Dx", True), b"\x82\x02Dx")
        # What compression makes longer is sent as it is.
        message = bytes(range(33, 127))
        self.assertEqual(sockets.frame(message, True)[:2], bytes((0x82, len(message))))

    def test_frames_are_kept_up_to_a_number_of_bytes(self):
        sockets = WebSockets()
        for number in range(100):
            message = b"D%d" % number + bytes(100000)
            frame = sockets.frame(message, False)
            self.assertIs(sockets.frame(message, False), frame)
        # A message and its frame count.
        self.assertLessEqual(sockets.frame.cache_info().currsize * 200000, (1 << 22) + 200000)
        first, _ = (sockets.frame(message, False) for message in (b"Dfirst", b"Dsecond"))
        self.assertIs(sockets.frame(b"Dfirst", False), first)

    def test_smaller_windows_are_refused(self):
        async def check():
            async with Shared(ECHO) as shared:
                await ready(shared)
                viewer = Compressing(shared.port, server_max_window_bits=9)
                await viewer.open(shared.tokens.write)
                self.assertEqual(viewer.protocol.extensions, [])
                await viewer.send(b"i" + b"word " * 100)
                await viewer.until("word word word")

        asyncio.run(check())


@needs_websockets
class WholeMessages(unittest.TestCase):
    """Which frames are read without a protocol."""

    def setUp(self):
        self.sockets = WebSockets()

    def _read(self, data, is_compressed):
        found, length = self.sockets.frame_in(data, is_compressed)
        return None if found is None else (found.opcode, bytes(found.data)), length

    def test_binary_messages_in_one_frame(self):
        for message in (b"", b"a\0\0\1\0", b"i" + b"x" * 200, b"i" + b"y" * 16000):
            plain, small = frame(BINARY, message), frame(BINARY | COMPRESSED, packed(message))
            for rest in (b"", b"x", plain):
                for data, is_compressed in ((plain, False), (plain, True), (small, True)):
                    expected = (BINARY, message), len(data)
                    self.assertEqual(self._read(data + rest, is_compressed), expected)

    def test_pongs(self):
        for text in (b"", b"x" * 125):
            data = frame(PONG, text)
            self.assertEqual(self._read(data + b"x", True), ((PONG, text), len(data)))

    def test_a_protocol_reads_all_else(self):
        whole = frame(BINARY, b"i" + b"x" * 200)
        small = frame(BINARY | COMPRESSED, packed(b"i" * 200))
        for data in (
            *(one[:at] for one in (whole, small) for at in range(len(one))),
            b"\x82\1x", frame(TEXT, b"x"),
            frame(BINARY, b"x", False), frame(CONTINUATION, b"x"), frame(3, b"x"),
            frame(BINARY | 0x20, b"x"), frame(BINARY | COMPRESSED, b"\xff\xff"),
            frame(BINARY | COMPRESSED, packed(b"i" * 20000)), frame(BINARY, b"i" * 20000),
            frame(BINARY | COMPRESSED, packed(b"x"), False), frame(PONG, b"", False),
            frame(PONG, b"x" * 126),
        ):
            self.assertEqual(self._read(data, True), (None, 0), data[:20])
        self.assertEqual(self._read(small, False), (None, 0))
        for data in (
            frame(PING, b"ab"), frame(CLOSE, b"\3\xe8"), frame(PING | COMPRESSED, packed(b"x")),
        ):
            self.assertEqual(self._read(data + whole, True), (None, len(data)))


@needs_websockets
class Protocols(unittest.TestCase):
    """Which connections have a protocol object, of which 10,000 would take over 40 MB."""

    def _have_protocols(self, *sent):
        """Returns whether viewers have one after some frames: each without and with compression."""

        async def check():
            found = []
            async with Shared(ECHO, (24, 200)) as shared:
                await ready(shared)
                for number, (make, data) in enumerate(itertools.product((Client, Compressing), sent)):
                    before = set(shared.server.connections)
                    viewer = await make(shared.port).open(shared.tokens.write)
                    await viewer.until("")
                    viewer.writer.write(data + frame(BINARY, b"i<%d>" % number))
                    await viewer.until(f"<{number}>")
                    (connection,) = shared.server.connections - before
                    found.append(connection._kept_protocol is not None)
            return found

        return asyncio.run(check())

    def test_who_sends_whole_messages_has_none(self):
        whole = frame(BINARY, b"i.") * 5 + frame(PONG, b"x")
        self.assertEqual(self._have_protocols(b"", whole), [False] * 4)

    def test_who_sends_fragments_or_pings_has_one(self):
        parts = frame(BINARY, b"i", False) + frame(CONTINUATION, b".")
        self.assertEqual(self._have_protocols(parts, frame(PING, b"")), [True] * 4)

    def test_none_is_needed_to_ping_a_silent_viewer(self):
        async def check():
            async with Shared(ECHO) as shared:
                await ready(shared)
                viewer = await shared.viewer()
                await viewer.until("")
                (connection,) = shared.server.connections
                connection.check_time(connection._heard + _connection.PING_AFTER + 1)
                self.assertTrue(connection._is_pinged)
                await viewer._receive()
                while connection._is_pinged:  # until the pong has arrived
                    await asyncio.sleep(0.01)
                self.assertIsNone(connection._kept_protocol)

        asyncio.run(check())

    def test_nothing_is_logged(self):
        logger = WebSockets().protocol().logger
        self.assertFalse(logger.isEnabledFor(logging.CRITICAL))

    def test_one_that_is_made_late_is_between_two_messages(self):
        sockets = WebSockets()
        for is_compressed in (False, True):
            protocol = sockets.opened(is_compressed)
            self.assertIs(protocol.state, sockets.open)
            self.assertEqual((protocol.data_to_send(), sockets.events(protocol, b"")), ([], []))
            data = frame(BINARY | COMPRESSED, packed(b"word")) if is_compressed else frame(BINARY, b"word")
            (found,) = sockets.events(protocol, data)
            self.assertEqual((found.opcode, bytes(found.data)), (BINARY, b"word"))


class Libraries(unittest.TestCase):
    def test_a_missing_library_is_one_clear_line(self):
        with mock.patch.dict("sys.modules", {"websockets.server": None}):
            with self.assertRaisesRegex(NoLibrary, "^the package websockets is required: [^\n]*$"):
                WebSockets()


if __name__ == "__main__":
    unittest.main()
