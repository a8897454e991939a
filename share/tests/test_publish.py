"""Tests of what a server of vt100-share publishes for relays, entry by entry, and what a relay does with it."""

import asyncio
import contextlib
import unittest
from unittest import mock

import relaying
from relaying import Published, RedisServer, Relayed, needs_redis, until, within
from vt100_share import _publish, _relay
from vt100_share import _stream as stream
from vt100_share._messages import Nonsense
from vt100_share._publish import Publisher
from vt100_share._redis import text_of
from vt100_share._relay import Relay
from vt100_share._viewers import Notes

#: A program that writes what it reads.
CAT = ["sh", "-c", "stty -echo; exec cat"]


class Share:
    """Takes what is typed."""

    def __init__(self):
        self.typed = []

    def type_for_viewer(self, text):
        self.typed.append(text)


class Input(unittest.TestCase):
    def test_every_character_of_a_proof_counts(self):
        token, run, relay = b"t" * 20, b"a" * 16, b"b" * 16
        fields = stream.typed_fields(token, run, relay, 7, b"text")
        self.assertEqual(stream.typed_of(token, run, fields), (relay, 7, b"text"))
        proof = fields[b"proof"]
        for at in range(len(proof)):
            other = b"0" if proof[at : at + 1] != b"0" else b"1"
            forged = {**fields, b"proof": proof[:at] + other + proof[at + 1 :]}
            with self.subTest(at), self.assertRaises(Nonsense):
                stream.typed_of(token, run, forged)

    def test_input_of_a_limited_number_of_relays_is_accepted(self):
        token, run = b"t" * 20, b"a" * 16
        publisher = Publisher.__new__(Publisher)
        publisher.run, publisher._share, publisher._last_numbers = run, Share(), {}
        for number in range(1030):
            relay = b"%016x" % number
            publisher._take(token, stream.typed_fields(token, run, relay, 1, b"%d" % number))
        self.assertEqual(publisher._share.typed, [b"%d" % number for number in range(1024)])
        publisher._take(token, stream.typed_fields(token, run, b"%016x" % 0, 2, b"more"))
        self.assertEqual(publisher._share.typed[-1], b"more")

    def test_what_is_typed_into_a_stale_screen_is_dropped(self):
        async def check():
            relay = Relay.__new__(Relay)
            relay._token, relay._unsent, relay._wake = b"token", bytearray(), asyncio.Event()
            relay.notes = Notes(is_stale=True)
            relay.type(b"dropped")
            self.assertEqual((bytes(relay._unsent), relay._wake.is_set()), (b"", False))
            relay.notes = Notes()
            relay.type(b"sent")
            with mock.patch.object(_relay, "_MAX_UNSENT", 10):
                relay.type(b"x" * 7)
            self.assertEqual((bytes(relay._unsent), relay._wake.is_set()), (b"sent", True))

        asyncio.run(check())


@needs_redis
class Entries(unittest.TestCase):
    def run_with(self, check, command=CAT, **patches):
        async def run(server):
            async with Published(server, command) as shared:
                client = relaying.client_of(server).client
                try:
                    await within(50, check(server, shared, client))
                finally:
                    await client.connection_pool.disconnect()

        with RedisServer() as server, mock.patch.multiple(_publish, **patches):
            asyncio.run(run(server))

    async def entries(self, client):
        """Returns the numbers and the kinds of the entries."""
        found = await client.xrange("stream")
        return [(int(fields[b"number"]), fields[b"message"][:1]) for _, fields in found]

    def kinds(self, entries):
        return b"".join(kind for _, kind in entries)

    def test_the_stream_begins_with_the_last_keyframe_but_one(self):
        async def check(server, shared, client):
            numbers = set()
            while len(numbers) < 6:
                entries = await self.entries(client)
                if entries:
                    self.assertEqual(entries[0][1], b"K")
                    numbers.add(entries[0][0])
                    if len(numbers) > 2:
                        # There is a third one until the first one has been removed.
                        self.assertIn(self.kinds(entries).count(b"K"), (2, 3))
                await asyncio.sleep(0.05)

        self.run_with(check, KEYFRAME_GAP=0.3)

    def test_many_updates_make_a_keyframe_due(self):
        async def check(server, shared, client):
            await until(lambda: shared.publisher._version is not None)
            start = shared.publisher._keyframe_at
            await asyncio.sleep(0.3)
            self.assertEqual(shared.publisher._keyframe_at, start)
            for number in range(30):
                shared.share.type(b"%d%s\r" % (number, b"x" * 70))
                await asyncio.sleep(0.04)
            await until(lambda: shared.publisher._keyframe_at > start)

        self.run_with(check, KEYFRAME_GAP=3600.0, KEYFRAME_BYTES=500)

    def test_a_number_is_left_out_after_an_error(self):
        async def check(server, shared, client):
            await until(lambda: shared.publisher._version is not None)
            await within(10, self._until_entry(client))
            before = shared.publisher._number
            await shared.publisher._begin()
            shared.publisher._wake.set()
            await until(lambda: shared.publisher._version is not None)
            await asyncio.sleep(0.1)
            entries = await self.entries(client)
            following = [entry for entry in entries if entry[0] > before]
            self.assertEqual(following[0][1], b"K")
            self.assertGreaterEqual(following[0][0], before + 3)

        self.run_with(check, KEYFRAME_GAP=3600.0)

    async def _until_entry(self, client):
        while not await self.entries(client):
            await asyncio.sleep(0.02)

    def test_the_keys_stay_as_long_as_the_last_screen(self):
        async def check(server, shared, client):
            redis = relaying.client_of(server)
            publisher = Publisher(shared.share, redis, "other", self.fail, None, linger=100.0)
            shared.share.type(b"\4")
            await shared.share.ended.wait()
            await publisher.close()
            for name in ("other", "other:owner"):
                self.assertIn(int(server.call("TTL", name)), range(150, 161))

        self.run_with(check, KEYFRAME_GAP=5.0)

    def test_a_keyframe_redraws_nothing(self):
        async def check(server, shared, client):
            async with Relayed(server) as relay:
                viewer = await relay.viewer()
                await viewer.until_true(lambda: viewer.parser is not None and not viewer.is_stale)
                before, numbers = viewer.redraws, set()
                while len(numbers) < 6:
                    numbers.add(shared.publisher._last_keyframe)
                    with contextlib.suppress(asyncio.TimeoutError):
                        await asyncio.wait_for(viewer.next(), 0.05)
                shared.share.type(b"word\r")
                await viewer.until("word")
                self.assertEqual(viewer.redraws, before)

        self.run_with(check, KEYFRAME_GAP=0.2)


@needs_redis
class Errors(unittest.TestCase):
    def test_texts_of_errors(self):
        client = relaying.Redis("redis://:secret@box.example:7/3")
        response = relaying.redis.ResponseError
        for error, expected in (
            (response("NOREPLICAS Not enough good replicas"), "ResponseError: NOREPLICAS"),
            (response("Command # 2 (XADD x D\x1b[mhidden) of pipeline caused error: MISCONF a"), "ResponseError: MISCONF"),
            (response("unknown command, with args beginning with: 'hidden'"), "ResponseError"),
            (response("Hidden"), "ResponseError"),
            (relaying.redis.ConnectionError("a\x1b[31mb\nc"), "a[31mb"),
            (relaying.redis.ConnectionError("Connection closed by server."), "Connection closed by server"),
            (OSError(5, "no route" + "x" * 300), "[Errno 5] no route" + "x" * 182),
            (EOFError(), "EOFError"),
            (asyncio.TimeoutError(), "TimeoutError"),
        ):
            self.assertEqual(text_of(client, error), f"redis://box.example:7/3: {expected}")


if __name__ == "__main__":
    unittest.main()
