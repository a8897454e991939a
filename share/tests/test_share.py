"""Tests of the server of vt100-share: what viewers see, who may do what, and how it ends."""

import asyncio
import contextlib
import os
import random
import struct
import tempfile
import time
import unittest
from unittest import mock

import sharing
from sharing import Client, Closed, Shared, needs_websockets, noise, recorded
from vt100_share import _connection
from vt100_share._viewers import WINDOW

CAT = ["cat"]


def slowly(data, folder):
    """Returns a command that writes data in chunks, with pauses."""
    path = os.path.join(folder, "data")
    with open(path, "wb") as file:
        file.write(data)
    chunk = 'dd if="$1" bs="$2" skip=$k count=1 2>/dev/null; sleep 0.03'
    script = f"stty raw; for k in $(seq 0 19); do {chunk}; done"
    return ["sh", "-c", script, "sh", path, str(len(data) // 20 + 1)]


@needs_websockets
class Screens(unittest.TestCase):
    async def _late(self, shared, delay):
        await asyncio.sleep(delay)
        return await (await shared.viewer()).until_end()

    async def _slow(self, shared):
        viewer = await shared.viewer()
        while viewer.status is None:
            await asyncio.sleep(0.1)
            await viewer.next()
        return viewer

    async def _silent(self, shared):
        """Acknowledges nothing for a while."""
        viewer = await shared.viewer()
        viewer.acknowledges = False
        with contextlib.suppress(asyncio.TimeoutError):
            await asyncio.wait_for(viewer.until_end(), 0.5)
        viewer.acknowledges = True
        await viewer.acknowledge()
        return await viewer.until_end()

    async def _broken(self, shared, seed):
        rng = random.Random(seed)
        while shared.share.status is None:
            try:
                viewer = await shared.viewer()
                for _ in range(rng.randrange(4)):
                    await viewer.next()
                await viewer.send(rng.choice((b"", b"x", b"a", b"a\xff\xff\xff\xff", b"i", b"t")))
                await viewer.until_end()
            except (Closed, AssertionError):
                pass
            viewer.close()
            await asyncio.sleep(0.03)

    async def _check(self, data, seed):
        rng = random.Random(seed)
        with tempfile.TemporaryDirectory() as folder:
            async with Shared(slowly(data, folder)) as shared:
                late = [self._late(shared, rng.random() * 0.6) for _ in range(6)]
                tasks = [*late, self._slow(shared), self._silent(shared)]
                tasks.append(self._late(shared, 0))
                broken = asyncio.ensure_future(self._broken(shared, seed))
                viewers = await asyncio.gather(*tasks)
                await broken
                for viewer in viewers:
                    self.assertEqual(viewer.parser.state_formatted(), shared.contents)
                self.assertTrue(any(viewer.updates > 5 for viewer in viewers))

    def test_every_viewer_ends_with_the_screen_of_the_server(self):
        asyncio.run(self._check(recorded(), 1))
        asyncio.run(self._check(noise(2) + b"\x1b[2J\x1b[Hend", 2))

    def test_who_acknowledges_nothing_gets_no_more_than_the_window(self):
        rng = random.Random(3)
        text = "".join(chr(rng.randrange(33, 127)) for _ in range(20 * 4000)).encode()

        async def check(folder):
            async with Shared(slowly(text, folder), (50, 80)) as shared:
                silent, other = await shared.viewer(), await shared.viewer()
                silent.acknowledges = False
                await other.until_end()
                with self.assertRaises(asyncio.TimeoutError):
                    await asyncio.wait_for(silent.until_end(), 0.3)
                self.assertLess(silent.read, WINDOW + 5000)
                self.assertGreater(other.read, 40000)
                silent.acknowledges = True
                await silent.acknowledge()
                await silent.until_end()
                self.assertEqual(silent.parser.state_formatted(), shared.contents)

        with tempfile.TemporaryDirectory() as folder:
            asyncio.run(check(folder))

    def test_the_title_is_sent_to_present_and_later_viewers(self):
        async def check():
            script = "read a; printf '\\033]2;name\\007x'; read b"
            async with Shared(["sh", "-c", script]) as shared:
                first = await shared.viewer(shared.tokens.write)
                await first.until("")
                await first.send(b"i\r")
                while first.title is None:
                    await first.next()
                second = await shared.viewer()
                while second.title is None:
                    await second.next()
                self.assertEqual((first.title, second.title), ("name", "name"))

        asyncio.run(check())

    def test_queries_are_answered_once(self):
        script = "stty -echo raw; printf '\\033[6n'; dd bs=1 count=6 2>/dev/null | od -c"

        async def check():
            async with Shared(["sh", "-c", script]) as shared:
                first, second = await shared.viewer(), await shared.viewer()
                await asyncio.gather(first.until_end(), second.until_end())
                self.assertIn("033   [   1   ;   1   R", first.parser.contents())

        asyncio.run(check())


@needs_websockets
class Access(unittest.TestCase):
    def test_only_a_writer_types(self):
        async def check():
            async with Shared(CAT) as shared:
                reader, writer = await shared.viewer(), await shared.viewer(shared.tokens.write)
                await writer.send(b"ihello\r")
                await asyncio.gather(writer.until("hello\nhello"), reader.until("hello\nhello"))
                self.assertEqual((reader.may_write, writer.may_write), (False, True))
                await reader.send(b"iforbidden\r")
                with self.assertRaises(Closed) as raised:
                    await reader.until("forbidden")
                self.assertEqual(raised.exception.args, (1008,))
                await writer.send(b"iallowed\r")
                await writer.until("allowed\nallowed")
                self.assertNotIn("forbidden", writer.parser.contents())

        asyncio.run(check())

    def test_wrong_tokens_are_refused(self):
        async def check():
            async with Shared(CAT) as shared:
                for token in ("", "x", shared.tokens.read[:-1], shared.tokens.read + "x"):
                    viewer = await Client(shared.port).open()
                    await viewer.send(b"t" + token.encode())
                    with self.assertRaises(Closed) as raised:
                        await viewer.next()
                    self.assertEqual(raised.exception.args, (1008,))
                self.assertIsNone(sharing.Tokens(False).write)
                self.assertIsNone(sharing.Tokens(False).check(b""))

        asyncio.run(check())

    def test_origin_and_host_are_checked(self):
        async def check():
            async with Shared(CAT) as shared:
                own = f"http://127.0.0.1:{shared.port}"
                for origin, host, status in (
                    (own, None, None),
                    (None, None, None),
                    (f"http://localhost:{shared.port}", f"localhost:{shared.port}", None),
                    ("http://evil.example", None, 403),
                    ("null", None, 403),
                    (own.replace("http", "https"), None, 403),
                    (f"http://evil.example:{shared.port}", f"evil.example:{shared.port}", 421),
                    (own, "[", 421),
                ):
                    with self.subTest(origin=origin, host=host):
                        client = Client(shared.port, origin=origin, host=host)
                        if status is None:
                            await (await client.open(shared.tokens.read)).until("")
                            continue
                        with self.assertRaises(Closed) as raised:
                            await client.open()
                        self.assertEqual(raised.exception.args, (status,))

        asyncio.run(check())

    def test_there_is_a_limit_for_viewers(self):
        async def check():
            async with Shared(CAT, viewers=2) as shared:
                first, second = await shared.viewer(), await shared.viewer()
                await asyncio.gather(first.until(""), second.until(""))
                third = await shared.viewer()
                with self.assertRaises(Closed) as raised:
                    await third.next()
                self.assertEqual(raised.exception.args, (1013,))
                second.close()
                while shared.share.viewer_count > 1:
                    await asyncio.sleep(0.01)
                await (await shared.viewer()).until("")

        asyncio.run(check())

    async def _request(self, shared, text):
        """Returns the response to a request, up to the end of the connection."""
        reader, writer = await asyncio.open_connection("127.0.0.1", shared.port)
        try:
            writer.write(text)
            return await asyncio.wait_for(reader.read(), 10)
        except ConnectionError:
            return b""
        finally:
            writer.close()

    def test_requests_that_are_malformed_or_for_other_files(self):
        async def check():
            async with Shared(CAT) as shared:
                host = f"Host: 127.0.0.1:{shared.port}\r\n\r\n".encode()
                for head, status in (
                    (b"GET / HTTP/1.1\r\n" + host, b" 200 "),
                    (b"GET /../../etc/passwd HTTP/1.1\r\n" + host, b" 404 "),
                    (b"GET http://x/ HTTP/1.1\r\n" + host, b" 404 "),
                    (b"GET /viewer HTTP/1.1\r\n" + host, b" 4"),
                    (b"GET / HTTP/1.1\r\n\r\n", b" 421 "),
                    (b"GET / HTTP/1.1\r\nHost: 127.0.0.1\r\n" + host, b" 421 "),
                    (b"POST / HTTP/1.1\r\n" + host, b""),
                    (b"\x16\x03\x01nonsense\r\n\r\n", b""),
                    (b"GET / HTTP/1.1\r\n" + b"a: b\r\n" * 5000, b""),
                    (b"a" * 100000, b""),
                ):
                    with self.subTest(head[:40]):
                        response = await self._request(shared, head)
                        self.assertIn(status, response.split(b"\r\n")[0])
                response = await self._request(shared, b"GET / HTTP/1.1\r\n" + host)
                self.assertIn(b"Content-Security-Policy: default-src 'none'; script-src", response)
                self.assertTrue(response.endswith(b"page"))

        asyncio.run(check())


@needs_websockets
class Nonsense(unittest.TestCase):
    def _each(self, *messages):
        async def check():
            async with Shared(CAT) as shared:
                good = await shared.viewer(shared.tokens.write)
                for message in messages:
                    viewer = await shared.viewer(shared.tokens.write)
                    await viewer.until("")
                    await viewer.send(message)
                    with self.subTest(message[:9]), self.assertRaises(Closed):
                        await viewer.until("never")
                await good.send(b"istill here\r")
                await good.until("still here\nstill here")

        asyncio.run(check())

    def test_messages_that_no_page_sends(self):
        far = b"a" + struct.pack(">I", 1 << 31)
        self._each(b"", b"q", b"a", b"a123456", far, b"t", b"i" + bytes(1 << 20))

    def test_text_messages_and_malformed_frames(self):
        async def check():
            async with Shared(CAT) as shared:
                viewer = await shared.viewer()
                viewer.protocol.send_text(b"text")
                await viewer._flush()
                with self.assertRaises(Closed):
                    await viewer.until("never")
                viewer = await shared.viewer()
                viewer.writer.write(b"\xff" * 100)
                with self.assertRaises(Closed):
                    await viewer.until("never")
                await (await shared.viewer()).until("")

        asyncio.run(check())

    def test_too_many_messages(self):
        async def check():
            async with Shared(["sleep", "9"]) as shared:
                viewer = await shared.viewer()
                await viewer.until("")
                count = b"a" + struct.pack(">I", viewer.read)
                with self.assertRaises(Closed):
                    for _ in range(2000):
                        await viewer.send(count)
                    await viewer.until("never")
                self.assertEqual(shared.share.viewer_count, 0)

        asyncio.run(check())

    def test_silent_connections_are_cut_off(self):
        async def check():
            async with Shared(CAT) as shared:
                stranger = await asyncio.open_connection("127.0.0.1", shared.port)
                viewer = await shared.viewer()
                await viewer.until("")
                now = time.monotonic()
                for connection in list(shared.server.connections):
                    connection.check_time(now + _connection.PING_AFTER + 1)
                self.assertEqual(await asyncio.wait_for(stranger[0].read(), 5), b"")
                stranger[1].close()
                for connection in list(shared.server.connections):
                    connection.check_time(now + _connection.GONE_AFTER + 1)
                with self.assertRaises(Closed):
                    await viewer.until("never")

        asyncio.run(check())


@needs_websockets
class Ends(unittest.TestCase):
    def test_viewers_get_the_last_update_and_the_status(self):
        async def check():
            async with Shared(["sh", "-c", "read a; seq 500; exit 7"]) as shared:
                viewers = [await shared.viewer() for _ in range(5)]
                await asyncio.gather(*(viewer.until("") for viewer in viewers))
                writer = await shared.viewer(shared.tokens.write)
                await writer.send(b"i\r")
                await asyncio.gather(*(viewer.until_end() for viewer in viewers))
                for viewer in viewers:
                    self.assertEqual(viewer.status, 7)
                    self.assertIn("499\n500", viewer.parser.contents())

        asyncio.run(check())

    def test_who_acknowledges_nothing_gets_the_end_all_the_same(self):
        async def check(folder):
            text = "".join(map(chr, range(33, 127))).encode() * 400
            async with Shared(slowly(text, folder)) as shared:
                viewer = await shared.viewer()
                viewer.acknowledges = False
                await viewer.until_end()
                self.assertEqual(viewer.parser.state_formatted(), shared.contents)

        with tempfile.TemporaryDirectory() as folder:
            with mock.patch("vt100_share._share._FAREWELL", 0.3):
                with mock.patch("vt100_share._viewers.WINDOW", 1000):
                    asyncio.run(check(folder))

    def test_a_signal_counts_as_in_a_shell(self):
        async def check():
            async with Shared(["sh", "-c", "kill -9 $$"]) as shared:
                self.assertEqual((await (await shared.viewer()).until_end()).status, 137)

        asyncio.run(check())


if __name__ == "__main__":
    unittest.main()
