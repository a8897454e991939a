"""Tests of relays of vt100-share, with a real Redis server: what their viewers see, who may type, and
what happens when one of the servers dies and returns."""

import asyncio
import contextlib
import os
import random
import signal
import tempfile
import unittest
from unittest import mock

import relaying
from relaying import CAT, Case, Published, RedisServer, Relayed, cancel, needs_redis, until, within
from sharing import Closed, noise, recorded
from test_share import slowly
from test_play import Played, written
from vt100_share import _stream as stream
from vt100_share._publish import Publisher


@needs_redis
class Screens(Case):
    async def _late(self, relay, delay):
        await asyncio.sleep(delay)
        return await (await relay.viewer()).until_end()

    async def _slow(self, relay):
        viewer = await relay.viewer()
        while viewer.status is None:
            await asyncio.sleep(0.1)
            await viewer.next()
        return viewer

    async def _broken(self, relay, seed):
        rng = random.Random(seed)
        while relay.share.status is None:
            with contextlib.suppress(Closed):
                viewer = await relay.viewer()
                for _ in range(rng.randrange(4)):
                    await viewer.next()
                await viewer.send(rng.choice((b"", b"x", b"a", b"a\xff\xff\xff\xff", b"i", b"t")))
                await viewer.until_end()
            viewer.close()
            await asyncio.sleep(0.03)

    async def _check(self, server, data, seed, size=(24, 80)):
        rng = random.Random(seed)
        with tempfile.TemporaryDirectory() as folder:
            first, second = Relayed(server), Relayed(server)
            async with first, Published(server, slowly(data, folder), size) as shared, second:
                tasks = [self._late(shared, 0)]
                for relay in (first, second):
                    tasks += [self._late(relay, rng.random() * 0.6) for _ in range(4)]
                    tasks += [self._slow(relay), self._late(relay, 0)]
                broken = asyncio.ensure_future(self._broken(first, seed))
                viewers = await within(60, asyncio.gather(*tasks))
                await broken
                for viewer in viewers:
                    self.assert_same(viewer, shared)
                    self.assertEqual(viewer.status, 0)
                self.assertTrue(any(viewer.updates > 5 for viewer in viewers))

    def test_every_viewer_of_a_relay_ends_with_the_screen_of_the_server(self):
        with RedisServer() as server:
            asyncio.run(self._check(server, recorded(), 1))
        with RedisServer() as server:
            data = noise(2) + b"\x1b[2J\x1b[Hend"
            asyncio.run(self._check(server, data, 2, (37, 101)))

    def test_titles_modes_and_the_status_reach_viewers_of_relays_that_start_late(self):
        script = "printf '\\033]2;name\\007\\033[?1h\\033[?2004hx'; read a; exit 7"

        async def check(server):
            async with Published(server, ["sh", "-c", script], (11, 44)) as shared:
                writer = await shared.viewer(shared.tokens.write)
                await writer.until("x")
                await asyncio.sleep(0.2)
                async with Relayed(server) as relay:
                    viewer = await relay.viewer()
                    await until(lambda: not relay.share.notes.is_stale)
                    await viewer.until_true(lambda: viewer.title is not None)
                    await self.until_same(viewer, shared)
                    self.assertEqual(viewer.title, "name")
                    self.assertEqual(viewer.parser.size, (11, 44))
                    self.assertTrue(viewer.parser.application_cursor)
                    self.assertTrue(viewer.parser.bracketed_paste)
                    await writer.send(b"i\r")
                    await viewer.until_end()
                    self.assertEqual((viewer.status, relay.share.status), (7, 7))
                    await within(20, relay.share.ended.wait())

        with RedisServer() as server:
            asyncio.run(check(server))

    def test_a_relay_shows_a_program_that_has_ended(self):
        async def check(server):
            async with Published(server, ["sh", "-c", "echo word; exit 3"]) as shared:
                await within(20, shared.share.ended.wait())
                await shared.publisher.close()
                async with Relayed(server) as relay:
                    viewer = await (await relay.viewer()).until_end()
                    self.assertEqual(viewer.status, 3)
                    self.assert_same(viewer, shared)
                    self.assertFalse(viewer.is_stale)

        with RedisServer() as server:
            asyncio.run(check(server))
            for name in ("stream", "stream:owner"):
                self.assertIn(int(server.call("TTL", name)), range(1, 61))

    def test_the_stream_stays_short(self):
        async def check(server):
            async with Published(server, ["sh", "-c", "while :; do date +%N; sleep 0.01; done"]):
                await asyncio.sleep(1.5)
                lengths = []
                for _ in range(10):
                    lengths.append(int(server.call("XLEN", "stream")))
                    await asyncio.sleep(0.1)
                self.assertLess(max(lengths), 40)
                self.assertGreater(min(lengths), 0)
                # If the server vanishes now, Redis removes the keys after an hour.
                for name in ("stream", "stream:owner"):
                    self.assertIn(int(server.call("TTL", name)), range(3590, 3601))

        with RedisServer() as server, mock.patch("vt100_share._publish.KEYFRAME_GAP", 0.3):
            asyncio.run(check(server))

    def test_a_recording_that_changes_its_size(self):
        sizes = ("30x7", "100x40", "2x1", "81x25")
        events = [[0.2, "o", "\x1b]2;name\x07first\r\n"]]
        for number, size in enumerate(sizes):
            events.append([0.3 + number / 5, "r", size])
            events.append([0.4 + number / 5, "o", f"\x1b[3{number}mtext {number}\r\n"])

        async def check(server, path):
            async with Relayed(server) as relay, Played(path) as played:
                client = relaying.client_of(server)
                publisher = Publisher(played.share, client, "stream", self.fail)
                viewer = await relay.viewer()
                await within(20, viewer.until_end())
                await publisher.close()
                self.assertEqual((viewer.parser.size, viewer.title), ((25, 81), "name"))
                self.assert_same(viewer, played)

        with RedisServer() as server, tempfile.TemporaryDirectory() as folder:
            asyncio.run(check(server, written(folder, events)))


@needs_redis
class Typing(Case):
    def run_with(self, check, relay_token=relaying.TOKEN):
        async def run(server):
            async with Published(server, CAT) as shared:
                async with Relayed(server, token=relay_token) as relay:
                    await until(lambda: not relay.share.notes.is_stale)
                    await check(server, shared, relay)

        with RedisServer() as server:
            asyncio.run(run(server))

    def test_a_writer_at_a_relay_types(self):
        async def check(server, shared, relay):
            writer, reader = await relay.viewer(relay.tokens.write), await relay.viewer()
            self.assertEqual(await within(20, self._typed(writer, b"ihello\r")), True)
            await within(20, reader.until("hello"))
            await reader.send(b"iforbidden\r")
            with self.assertRaises(Closed):
                await within(20, reader.until("forbidden"))
            long = b"".join(b"%05d" % number for number in range(1000))
            for at in range(0, len(long), 50):
                await writer.send(b"i" + long[at : at + 50] + b"\r")
            await within(20, writer.until("00999"))
            self.assertNotIn("forbidden", shared.share.cohort.parser.contents())
            await self.until_same(writer, shared)

        self.run_with(check)

    async def _typed(self, writer, message):
        await writer.send(message)
        await writer.until(message[1:].decode().strip())
        return writer.may_write

    def test_input_without_the_token_is_not_typed(self):
        async def check(server, shared, relay):
            writer = await relay.viewer(relay.tokens.write)
            await writer.send(b"iforged\r")
            await until(lambda: server.call("XLEN", "stream:input") == "1")
            direct = await shared.viewer(shared.tokens.write)
            await direct.send(b"itrue\r")
            await within(20, writer.until("true"))
            self.assertNotIn("forged", writer.parser.contents())

        self.run_with(check, "another-token-of-relays")

    def test_malformed_forged_and_repeated_input_is_not_typed(self):
        async def check(server, shared, relay):
            run = shared.publisher.run
            token = relaying.TOKEN.encode()
            good = stream.typed_fields(token, run, b"0" * 16, 1, b"once\r")
            later = {**good, b"number": b"2"}
            other = stream.typed_fields(token, b"f" * 16, b"0" * 16, 5, b"bad\r")
            longer = stream.typed_fields(token, run, b"0" * 16, 6, b"bad" * 5000 + b"\r")
            wrong = [later, other, longer, {b"x": b"y"}, {**good, b"number": b"-1"}]
            wrong += [{**good, b"proof": b""}, {**good, b"text": b"bad\r", b"number": b"3"}]
            wrong += [{**good, b"relay": b"1" * 16}, {**good, b"run": b"\xff" * 16}]
            last = stream.typed_fields(token, run, b"0" * 16, 9, b"last\r")
            client = relaying.client_of(server)
            for fields in (*wrong, good, good, *wrong, last):
                await client.client.xadd("stream:input", fields)
            await client.close()
            viewer = await relay.viewer()
            await within(20, viewer.until("last"))
            self.assertEqual(viewer.parser.contents().split(), ["once", "last"])

        self.run_with(check)

    def test_nobody_types_at_a_relay_without_a_token(self):
        async def check(server, shared, relay):
            self.assertIsNone(relay.tokens.write)
            relay.share.type(b"word")
            await asyncio.sleep(0.2)
            self.assertEqual(server.call("EXISTS", "stream:input"), "0")

        self.run_with(check, None)


@needs_redis
class Faults(Case):
    """Faults while viewers watch: they see that the screen may be old, and then the screen."""

    def run_with(self, check, server=None, command=CAT, gap=1.0):
        async def run(server):
            async with Published(server, command) as shared, Relayed(server) as relay:
                viewer = await relay.viewer()
                writer = await shared.viewer(shared.tokens.write)
                await until(lambda: not relay.share.notes.is_stale)
                await writer.send(b"ifirst\r")
                await within(20, viewer.until("first"))
                await check(server, shared, relay, viewer, writer)

        with mock.patch("vt100_share._publish.KEYFRAME_GAP", gap):
            with server or RedisServer() as running:
                asyncio.run(run(running))

    async def _restart(self, server, shared, relay, viewer, writer):
        server.kill()
        await within(20, viewer.until_true(lambda: viewer.is_stale))
        await writer.send(b"iunseen\r")
        late = await relay.viewer()
        await within(20, late.until_true(lambda: late.is_stale))
        await asyncio.sleep(0.5)
        self.assertNotIn("unseen", viewer.parser.contents())
        server.start()
        await within(20, viewer.until("unseen"))
        for one in (viewer, late):
            await self.until_same(one, shared)
        await writer.send(b"isecond\r")
        await within(20, viewer.until("second"))
        await self.until_same(viewer, shared)
        typist = await relay.viewer(relay.tokens.write)
        await typist.until("second")
        await typist.send(b"ithird\r")
        await within(20, viewer.until("third"))
        lost, found = shared.reports
        self.assertIn("trying again", lost)
        self.assertIn("connected again", found)

    def test_a_redis_that_restarts_and_has_forgotten_the_stream(self):
        self.run_with(self._restart)

    def test_a_redis_that_restarts_with_the_stream(self):
        options = ("--appendonly", "yes", "--appendfsync", "always")
        self.run_with(self._restart, RedisServer(*options))

    def test_a_redis_that_hangs(self):
        async def check(server, shared, relay, viewer, writer):
            server.send_signal(signal.SIGSTOP)
            await writer.send(b"iunseen\r")
            await within(20, viewer.until_true(lambda: viewer.is_stale))
            server.send_signal(signal.SIGCONT)
            await within(20, viewer.until("unseen"))
            await self.until_same(viewer, shared)

        self.run_with(check)

    def test_a_stream_that_is_trimmed_or_removed(self):
        async def check(server, shared, relay, viewer, writer):
            for number, words in enumerate((["XTRIM", "stream", "MAXLEN", "0"], ["FLUSHALL"])):
                server.call(*words)
                await writer.send(b"iword%d\r" % number)
                await within(20, viewer.until(f"word{number}"))
                await self.until_same(viewer, shared)
                async with Relayed(server) as late:
                    await self.until_same(await late.viewer(), shared)

        self.run_with(check)

    def test_a_relay_that_missed_entries_waits_for_a_keyframe(self):
        async def check(server, shared, relay, viewer, writer):
            shared.publisher._number += 1  # as if an entry had been lost
            await writer.send(b"isecond\r")
            await within(20, viewer.until_true(lambda: viewer.is_stale))
            self.assertNotIn("second", viewer.parser.contents())
            await within(20, viewer.until("second"))
            await self.until_same(viewer, shared)

        self.run_with(check, gap=3.0)

    def test_a_relay_that_missed_entries_before_the_end(self):
        async def check(server, shared, relay, viewer, writer):
            shared.publisher._number += 1
            await writer.send(b"isecond\r\x04")
            await within(20, viewer.until_end())
            self.assertEqual((viewer.status, viewer.is_stale), (0, False))
            self.assertIn("second", viewer.parser.contents())
            self.assert_same(viewer, shared)

        self.run_with(check, gap=60.0)

    def test_a_server_that_is_stopped_or_leaves(self):
        async def check(server, shared, relay, viewer, writer):
            await cancel(shared.publisher._tasks)
            await within(20, viewer.until_true(lambda: viewer.is_stale))
            async with Published(server, ["sh", "-c", "echo another; cat"]) as second:
                await within(20, viewer.until("another"))
                await self.until_same(viewer, second)
                with mock.patch("vt100_share._stream.STALE_AFTER", 60):
                    await second.publisher.close()
                    await within(20, viewer.until_true(lambda: viewer.is_stale))
            self.assertIn("another", viewer.parser.contents())

        self.run_with(check)

    def test_a_second_server_takes_the_stream(self):
        async def check(server, shared, relay, viewer, writer):
            async with Published(server, ["sh", "-c", "echo second; cat"]) as second:
                await within(20, viewer.until("second"))
                await until(lambda: shared.reports)
                self.assertIn("another server publishes", shared.reports[0])
                await writer.send(b"imore\r")
                await writer.until("more")
                await asyncio.sleep(1.5)
                await self.until_same(viewer, second)
                self.assertEqual(second.reports, [])

        self.run_with(check)

    def test_random_faults(self):
        script = "while :; do cat /dev/urandom | head -c 20 | od -c; sleep 0.03; done"

        async def faults(server, rng):
            for _ in range(6):
                await asyncio.sleep(rng.random())
                kind = rng.randrange(4)
                if kind == 0:
                    server.kill()
                    await asyncio.sleep(rng.random())
                    server.start()
                elif kind == 1:
                    server.call("FLUSHALL")
                elif kind == 2:
                    server.call("XTRIM", "stream", "MAXLEN", str(rng.randrange(5)))
                else:
                    server.call("CLIENT", "KILL", "TYPE", "normal")

        async def check(server, shared, relay, viewer, writer):
            reading = asyncio.ensure_future(viewer.until_end())
            late = []
            rng = random.Random(4)
            await faults(server, rng)
            for _ in range(3):
                late.append(asyncio.ensure_future((await relay.viewer()).until_end()))
            os.kill(shared.program._process.pid, signal.SIGTERM)
            for one in await within(20, asyncio.gather(reading, *late)):
                self.assert_same(one, shared)
                self.assertEqual((one.status, one.is_stale), (143, False))

        self.run_with(check, command=["sh", "-c", f"echo first; {script}"])


if __name__ == "__main__":
    unittest.main()
