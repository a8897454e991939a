"""Tests of what a relay of vt100-share does with entries that no server writes."""

import asyncio
import random
import unittest

import relaying
from relaying import CAT, Case, Published, RedisServer, Relayed, needs_redis, until, within
from vt100_share._cohort import Cohort
from vt100_share._relay import Relay


@needs_redis
class Hostile(Case):
    def test_malformed_entries(self):
        run = b"a" * 16
        size = b"\0\x18\0\x50"
        wrong = [
            {b"x": b"y"},
            {b"run": run, b"number": b"1"},
            {b"run": run, b"number": b"1", b"message": b""},
            {b"run": run, b"number": b"x", b"message": b"P"},
            {b"run": run, b"number": b"9" * 30, b"message": b"P"},
            {b"run": b"A" * 16, b"number": b"1", b"message": b"P"},
            *(
                {b"run": run, b"number": b"%d" % number, b"message": message}
                for number, message in enumerate(
                    (
                        b"K", b"K\0\x18\0", b"K\0\0\0\x50", b"K\xff\xff\xff\xff", b"F\x01\xf5\0\x50",
                        b"Z", b"\xff\xfe", b"Kab", b"K" + size + b"\x1b]52;c;aGk=\x07\x1b[6n\x1b]2;",
                        b"D" + b"\x1b]2;" + b"a" * 3_000_000, b"D\x1b[6n\x1b[c", b"X", b"X-1",
                        b"Xabc", b"X99999", b"T\x1b]0;evil\x07", b"T" + b"a" * 100_000, b"P",
                    ),
                    5,
                )
            ),
        ]

        async def check(server):
            client = relaying.client_of(server)
            async with Relayed(server) as relay:
                viewer = await relay.viewer()
                for fields in wrong:
                    await client.client.xadd("stream", fields)
                reading = asyncio.ensure_future(viewer.until_true(lambda: False))
                await asyncio.sleep(1)
                self.assertFalse(reading.done())
                reading.cancel()
                self.assertIsNone(relay.share.status)
                self.assertLess(len(viewer.title or ""), 600)
                self.assertNotIn("\x1b", viewer.title or "")
                async with Published(server, CAT) as shared:
                    viewer = await relay.viewer()
                    await within(20, self.until_same(viewer, shared))
            await client.close()

        with RedisServer() as server:
            asyncio.run(check(server))

    def test_texts_that_no_server_writes_are_reported_once_and_end_with_a_keyframe(self):
        size, long = b"\0\x18\0\x50", b"a" * 3_000_000
        wrong = [b"D\x1b]2;" + long, b"D" + long, b"D" + b"x\x1b[65535b" * 30000, b"F" + size + long]

        async def check(server):
            client = relaying.client_of(server)
            async with Relayed(server) as relay:

                async def add(number, message):
                    fields = {b"run": b"a" * 16, b"number": b"%d" % number, b"message": message}
                    place = await client.client.xadd("stream", fields)
                    await until(lambda: relay.share._places["stream"] == place)

                for number, message in enumerate(wrong):
                    await add(3 * number + 1, b"K" + size + b"good %d" % number)
                    await until(lambda: f"good {number}" in relay.share.cohort.parser.contents())
                    await add(3 * number + 2, message)
                    await add(3 * number + 3, b"Dunseen")
                    await until(lambda: relay.share.notes.is_stale)
                    self.assertNotIn("unseen", relay.share.cohort.parser.contents())
                texts = [text for text in relay.reports if "no server writes" in text]
                self.assertEqual(len(texts), 1)
            await client.close()

        with RedisServer() as server:
            asyncio.run(check(server))

    def test_the_event_loop_has_its_turn_in_a_long_text(self):
        async def check():
            turns = 0

            async def count():
                nonlocal turns
                while True:
                    turns += 1
                    await asyncio.sleep(0)

            relay = Relay.__new__(Relay)
            relay.cohort = Cohort(24, 80)
            counting = asyncio.ensure_future(count())
            await relay._process(b"a" * 90000 + b"b")
            counting.cancel()
            self.assertGreaterEqual(turns, 20)
            self.assertTrue(relay.cohort.parser.contents().endswith("ab"))

        asyncio.run(check())

    def test_random_entries(self):
        rng = random.Random(5)

        def entry():
            message = bytes([rng.choice(b"KFDTVXPG"), *(rng.randrange(256) for _ in range(9))])
            run = rng.choice((b"a" * 16, b"b" * 16))
            return {b"run": run, b"number": b"%d" % rng.randrange(8), b"message": message}

        async def check(server):
            client = relaying.client_of(server)
            async with Relayed(server) as relay:
                for _ in range(300):
                    await client.client.xadd("stream", entry())
                async with Published(server, CAT) as shared:
                    viewer = await relay.viewer()
                    await within(20, self.until_same(viewer, shared))
            await client.close()

        with RedisServer() as server:
            asyncio.run(check(server))


if __name__ == "__main__":
    unittest.main()
