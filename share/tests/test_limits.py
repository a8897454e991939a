"""Tests of the limits of vt100-share: of time, of what waits for a program or a round, of commands, and
of tokens."""

import asyncio
import base64
import hmac
import os
import tempfile
import types
import unittest
from unittest import mock

from sharing import Client, Closed, Shared, Tokens, needs_websockets, slow
from vt100_share import _connection, _server, _viewers
from vt100_share._redis import Loss
from vt100_share._share import Queries
from vt100_share._site import Site

CAT = ["cat"]
HANDSHAKE = (
    b"GET /viewer HTTP/1.1\r\nHost: 127.0.0.1\r\nConnection: Upgrade\r\nUpgrade: websocket\r\n"
    b"Sec-WebSocket-Version: 13\r\nSec-WebSocket-Key: dGhlIHNhbXBsZSBub25jZQ==\r\n\r\n"
)


async def connected(port):
    """Returns the streams of a connection, which the test closes."""
    reader, writer = await asyncio.open_connection("127.0.0.1", port)
    Client.writers.append(writer)
    return reader, writer


async def until(condition):
    while not condition():
        await asyncio.sleep(0.01)


def run(check, command, **how):
    async def limited():
        async with Shared(command, **how) as shared:
            await asyncio.wait_for(check(shared), 60)

    asyncio.run(limited())


@needs_websockets
class Times(unittest.TestCase):
    def setUp(self):
        self.now = 1000.0
        clock = types.SimpleNamespace(monotonic=lambda: self.now)
        for patch in (
            mock.patch.object(_connection, "time", clock),
            mock.patch.object(_server.Server, "_sweep", mock.AsyncMock()),  # which has another clock
        ):
            patch.start()
            self.addCleanup(patch.stop)

    async def pass_time(self, shared, seconds):
        """Lets time pass. Returns the number of connections that are left."""
        self.now += seconds
        for connection in list(shared.server.connections):
            connection.check_time(self.now)
        await asyncio.sleep(0.1)
        return len(shared.server.connections)

    def test_two_seconds_for_a_request_and_two_for_a_token(self):
        async def check(shared):
            await connected(shared.port)
            slow, late = await connected(shared.port), await connected(shared.port)
            await until(lambda: len(shared.server.connections) == 3)
            self.assertEqual(await self.pass_time(shared, 1.5), 3)
            slow[1].write(HANDSHAKE[:-2])
            late[1].write(HANDSHAKE)
            await late[0].readuntil(b"\r\n\r\n")
            self.assertEqual(await self.pass_time(shared, 1.0), 1)
            self.assertEqual(await self.pass_time(shared, 0.5), 1)
            self.assertEqual(await self.pass_time(shared, 1.0), 0)
            self.assertEqual(shared.server.turned_away, 3)

        run(check, CAT)

    def test_ten_seconds_without_progress_for_a_response(self):
        async def check(shared):
            shared.server.site = Site({"/": ("text/plain", bytes(64 << 20))}, "127.0.0.1", [])
            reader, writer = await slow(shared.port)
            writer.write(b"GET / HTTP/1.1\r\nHost: 127.0.0.1\r\n\r\n")
            await reader.readuntil(b"\r\n\r\n")
            for _ in range(3):
                self.assertEqual(await self.pass_time(shared, 9.5), 1)
                await reader.readexactly(1 << 16)
            (connection,), before = shared.server.connections, 0
            while before != connection._unread:
                before = connection._unread
                await self.pass_time(shared, 0.0)
            self.assertEqual(await self.pass_time(shared, 9.5), 1)
            self.assertEqual(await self.pass_time(shared, 1.0), 0)

        run(check, CAT)

    def test_forty_seconds_for_a_reply_to_a_ping(self):
        async def check(shared):
            viewer = await shared.viewer()
            await viewer.until("")
            connection, = shared.server.connections
            await until(lambda: connection._viewer.read_len == viewer.read)
            heard = connection._heard
            self.assertEqual(await self.pass_time(shared, 19.5), 1)
            self.assertFalse(connection._is_pinged)
            self.assertEqual(await self.pass_time(shared, 1.0), 1)
            # The viewer replies as soon as it reads.
            reading = asyncio.ensure_future(viewer.until("never"))
            await until(lambda: connection._heard == heard + 20.5)
            reading.cancel()
            self.assertEqual(await self.pass_time(shared, 20.5), 1)
            self.assertTrue(connection._is_pinged)
            self.assertEqual(await self.pass_time(shared, 39.0), 1)
            self.assertEqual(await self.pass_time(shared, 1.0), 0)

        run(check, CAT)


@needs_websockets
class Waiting(unittest.TestCase):
    def test_input_that_the_program_does_not_read(self):
        async def check(shared):
            writer = await shared.viewer(shared.tokens.write)
            await writer.until("ready")
            with self.assertRaises(Closed):
                for _ in range(50):
                    await writer.send(b"i" + b"x" * 4095)
                await writer.until("never")
            self.assertEqual(shared.share.viewer_count, 0)
            self.assertLessEqual(shared.program.unsent_len, 32768 + 4096)

        run(check, ["sh", "-c", "stty raw -echo; echo ready; exec sleep 60"])

    def test_replies_that_the_program_does_not_read(self):
        async def check(shared):
            await (await shared.viewer()).until("ready")
            for _ in range(40):
                shared.share._reply(b"x" * 16000)
                self.assertLessEqual(shared.program.unsent_len, 256 << 10)
            self.assertGreater(shared.program.unsent_len, (256 << 10) - 16000)

        run(check, ["sh", "-c", "stty raw -echo; echo ready; exec sleep 60"])

    def test_a_long_text_arrives_whole_however_slowly_the_program_reads(self):
        text = b"".join(b"%07d." % number for number in range(25000))

        async def check(shared):
            writer = await shared.viewer(shared.tokens.write)
            await writer.until("ready")
            sent, at = 0, 0
            while at < len(text):
                chunk = text[at : at + 4000]
                while sent + 1 + len(chunk) - writer.taken > 32768:
                    await writer.next()
                await writer.send(b"i" + chunk)
                sent, at = sent + 1 + len(chunk), at + len(chunk)
            await writer.until("end")
            with open(os.path.join(self.folder, "read"), "rb") as file:
                self.assertEqual(file.read(), text)

        folder = tempfile.TemporaryDirectory()
        self.addCleanup(folder.cleanup)
        self.folder = folder.name
        script = "stty raw -echo; echo ready; for k in $(seq 40); do dd bs=5000 count=1 "
        script += "iflag=fullblock 2>/dev/null; sleep 0.02; done >$0; echo end; read a"
        run(check, ["sh", "-c", script, os.path.join(self.folder, "read")])

    def test_a_command_that_does_not_end_is_cancelled(self):
        async def check(shared):
            viewer = await shared.viewer()
            await viewer.until("after")
            self.assertEqual(shared.share.cohort.parser.pending_len, 0)

        script = "printf '\\033]2;'; head -c 1200000 /dev/zero | tr '\\0' a; echo; echo after; read a"
        run(check, ["sh", "-c", script])


class Attempts(unittest.TestCase):
    def test_redis_is_tried_again_within_two_seconds(self):
        redis = types.SimpleNamespace(label="redis", local_errors=OSError)
        loss = Loss(redis, lambda text: None)
        for _ in range(2):
            found = [loss.lost(OSError("lost")) for _ in range(50)]
            self.assertLessEqual(max(found), 2.0)
            self.assertLessEqual(found[0], 0.1)
            self.assertGreater(max(found), 1.0)
            loss.found()


class Secrets(unittest.TestCase):
    def test_tokens_have_144_random_bits(self):
        tokens = {token for _ in range(9) for token in (Tokens(True).read, Tokens(True).write)}
        self.assertEqual(len(tokens), 18)
        for token in tokens:
            self.assertEqual(len(base64.urlsafe_b64decode(token)) * 8, 144)

    def test_every_token_is_compared_as_a_whole(self):
        tokens = Tokens(True)
        right = (tokens.read, False), (tokens.write, True)
        for token, may_write in (*right, ("", None), ("a" * 24, None), (tokens.read[:-1], None)):
            with mock.patch.object(_viewers.hmac, "compare_digest", wraps=hmac.compare_digest) as compare:
                self.assertIs(tokens.check(token.encode()), may_write)
            self.assertEqual(compare.call_count, 2)

    def test_the_clipboard_is_neither_written_nor_read(self):
        sent = []
        queries = Queries(sent.append, lambda title: None)
        queries.copy_to_clipboard(None, b"c", b"YQ==")
        queries.paste_from_clipboard(None, b"c")
        self.assertEqual((sent, queries._copied), ([], {}))


if __name__ == "__main__":
    unittest.main()
