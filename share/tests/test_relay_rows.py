"""Tests of what viewers of relays of vt100-share see besides the screen: the rows that have scrolled
off, and how many viewers there are everywhere."""

import asyncio
import random
import tempfile
import unittest
from unittest import mock

import relaying
import vt100
from relaying import Published, RedisServer, Relayed, needs_redis, until, within
from sharing import first_difference, noise, scrollback_of
from test_share import slowly
from test_history import lines
from vt100_share import _stream as stream
from vt100_share._history import MAX_ROWS
from vt100_share._messages import Row
from vt100_share._publish import Census
from vt100_share._relay import Relay, RelayedRows

CAT = ["sh", "-c", "stty -echo; exec cat"]
RUN, OTHER = b"a" * 16, b"b" * 16


def fields(number, count, run=RUN, limit=100):
    rows = [Row(80, b"%d\r\n" % row) for row in range(number, number + count)]
    return stream.rows_fields(run, number, limit, rows)


class Rows(unittest.TestCase):
    """The rows that a relay takes from entries."""

    def setUp(self):
        self.rows = RelayedRows()
        self.rows.begin(RUN)

    def kept(self):
        return [int(row.text) for row in self.rows.history.after(None, 1 << 30)[1]]

    def test_known_rows_are_skipped(self):
        for number, count in ((5, 3), (5, 3), (6, 4), (5, 2), (10, 0), (10, 1)):
            self.rows.take(fields(number, count))
        self.assertEqual(self.kept(), [5, 6, 7, 8, 9, 10])
        self.assertEqual(self.rows.history.part(None).message[5:9], b"\0\6\0\x50")

    def test_rows_after_a_gap_replace_the_others(self):
        end = self.rows.history.end
        self.rows.take(fields(0, 3))
        before = self.rows.history.end
        self.rows.take(fields(4, 0))
        self.assertEqual(self.kept(), [])
        self.rows.take(fields(4, 2))
        self.assertEqual(self.kept(), [4, 5])
        self.assertEqual((before - end, self.rows.history.first - before), (3, 1))

    def test_rows_that_are_written_again_from_an_earlier_one_on_replace_the_others(self):
        self.rows.take(fields(5, 3))
        before = self.rows.history.end
        for number, count in ((0, 3), (3, 6), (8, 2)):
            self.rows.take(fields(number, count))
        self.assertEqual(self.kept(), list(range(10)))
        self.assertEqual(self.rows.history.first, before + 1)

    def test_the_limit_is_that_of_the_server(self):
        self.rows.take(fields(0, 9, limit=4))
        self.assertEqual(self.kept(), [5, 6, 7, 8])
        self.rows.take(fields(9, 1, limit=10**9))
        self.assertEqual(self.rows.history.limit, MAX_ROWS)

    def test_rows_of_another_server_are_read_again_when_it_begins(self):
        self.rows.take(fields(0, 3))
        self.rows.take(fields(0, 2, OTHER))
        self.assertEqual(self.kept(), [0, 1, 2])
        end = self.rows.history.end
        self.assertFalse(self.rows.begin(RUN))
        self.assertTrue(self.rows.begin(OTHER))
        self.assertEqual((self.kept(), self.rows.history.first), ([], end + 1))
        self.assertFalse(self.rows.begin(RUN))

    def test_malformed_entries_are_ignored(self):
        good = fields(0, 2)
        self.rows.take(good)
        for name, value in (
            (b"number", b"-1"), (b"number", b""), (b"limit", b"x"), (b"run", b"A" * 16),
            (b"rows", b"\0\0"), (b"rows", b"\0\0\0\2\0\x50a"), (b"rows", b"\0\0\0\1\0\0a"),
            (b"rows", b"\0\0\0\1\x03\xe9a"), (b"rows", b"\xff\xff\xff\xff\0\x50a"),
        ):
            self.rows.take({**good, b"number": b"2", name: value})
        self.rows.take({})
        self.assertEqual(self.kept(), [0, 1])


class Counts(unittest.TestCase):
    def test_a_relay_whose_report_stays_the_same_has_no_viewers(self):
        census = Census()
        for now, beats, expected, gone in (
            (0.0, (1, 1), (7, 1), []),
            (3.0, (2, 1), (7, 1), []),
            (4.5, (3, 1), (3, 1), [b"two"]),
            (5.0, (4, 2), (7, 1), []),
        ):
            one, two = stream.report(beats[0], 3, 1), stream.report(beats[1], 4, 0)
            self.assertEqual(census.count({b"one": one, b"two": two}, now), expected)
            self.assertEqual(census.gone, gone)

    def test_malformed_reports_count_for_nothing(self):
        wrong = (b"", b"1 2", b"1 2 x", b"1 -2 3", b"1 1000000 0", b"1 2 3 4")
        census = Census()
        reports = {b"%d" % number: value for number, value in enumerate(wrong)}
        self.assertEqual(census.count(reports, 0.0), (0, 0))
        self.assertEqual(len(census.gone), len(wrong))

    def test_only_so_many_relays_are_counted(self):
        reports = {b"%d" % number: stream.report(1, 1, 0) for number in range(2000)}
        self.assertEqual(Census().count(reports, 0.0), (1024, 0))

    def test_a_relay_shows_the_last_numbers_or_its_own(self):
        relay = Relay.__new__(Relay)
        relay._viewers, relay._writer_count = dict.fromkeys(range(3)), 2
        relay.is_typing_allowed = True
        for published, shown in (((0, 0), (3, 2)), ((9, 1), (9, 2)), ((2, 5), (3, 5))):
            relay._total = published
            self.assertEqual(relay._all_counts(), shown)


@needs_redis
class Sent(unittest.TestCase):
    async def _late(self, relay, delay):
        await asyncio.sleep(delay)
        return await within(60, (await relay.viewer()).until_end())

    def _assert_rows(self, viewer, whole):
        found, expected = scrollback_of(viewer.rows.parser), scrollback_of(whole)
        difference = first_difference(found, expected)
        self.assertIsNone(difference and difference[:500])

    async def _check(self, server, data, limit):
        whole = vt100.Parser(24, 80, limit)
        whole.process(data)
        with tempfile.TemporaryDirectory() as folder:
            first, second = Relayed(server), Relayed(server)
            shared = Published(server, slowly(data, folder), scrollback=limit)
            async with first, shared, second:
                viewers = [self._late(first, delay / 5) for delay in range(4)]
                viewers += [self._late(second, delay / 3) for delay in range(3)]
                for viewer in await asyncio.gather(*viewers, self._late(shared, 0)):
                    self._assert_rows(viewer, whole)
                    self.assertEqual(viewer.parser.state_formatted(), shared.contents)
                await within(20, shared.publisher.close())
                async with Relayed(server) as late:
                    self._assert_rows(await self._late(late, 0), whole)

    def test_viewers_of_relays_end_with_the_rows_of_the_server(self):
        mixed = noise(5).replace(b"\x1b[6n", b"").replace("\ufe0f".encode(), b"")
        mixed += b"\x1bc\x1b[3J" + lines(5, 3000) + b"\x1b[?1049l\x1b[r\x1b[9Hend\x1b[J"
        for data, limit in ((lines(3, 6000), 500), (lines(4, 9000), 50), (mixed, 500)):
            with self.subTest(limit=limit), RedisServer() as server:
                asyncio.run(self._check(server, data, limit))

    def test_few_rows_in_an_entry(self):
        with mock.patch("vt100_share._stream.ROWS_SIZE", 300), RedisServer() as server:
            asyncio.run(self._check(server, lines(6, 6000), 500))

    def test_the_stream_of_rows_stays_short(self):
        async def check(server):
            script = "seq 200; while read a; do seq 300; done"
            async with Published(server, ["sh", "-c", script], scrollback=100) as shared:
                writer = await shared.viewer(shared.tokens.write)
                for _ in range(10):
                    await writer.send(b"i\r")
                    await asyncio.sleep(0.1)
                self.assertLess(int(server.call("XLEN", "stream:rows")), 6)
                await within(20, shared.publisher.close())
                for name in ("stream:rows", "stream"):
                    self.assertIn(int(server.call("TTL", name)), range(1, 61))

        with RedisServer() as server:
            asyncio.run(check(server))

    def test_rows_return_after_redis_has_lost_them(self):
        async def check(server):
            command = ["sh", "-c", "stty -echo; seq 300; read a; seq 301 400; read a"]
            async with Published(server, command, scrollback=1000) as shared, Relayed(server) as relay:
                viewer = await relay.viewer()
                await within(20, viewer.until("300"))
                server.kill()
                await asyncio.sleep(0.3)
                server.start()
                writer = await shared.viewer(shared.tokens.write)
                await writer.send(b"i\r")
                await within(30, viewer.until("400"))
                late = await relay.viewer()
                async with Relayed(server) as second:
                    for one in (viewer, late, await second.viewer()):
                        await within(20, one.until_true(
                            lambda: one.rows is not None and len(one.rows.parser.history) == 377
                        ))
                        found = [row.strip() for row in one.rows.parser.history.rows()]
                        self.assertEqual(found, [str(number) for number in range(1, 378)])

        with RedisServer() as server:
            asyncio.run(check(server))

    def test_viewers_are_counted_together(self):
        async def check(server):
            first, second = Relayed(server), Relayed(server)
            async with Published(server, CAT) as shared, first, second:
                viewers = [await place.viewer() for place in (shared, first, first, second)]
                writer = await second.viewer(second.tokens.write)
                for viewer in (*viewers, writer):
                    await within(20, viewer.until_true(lambda: viewer.counts == (5, 1)))
                writer.close()
                viewers.pop(1).close()
                for viewer in viewers:
                    await within(20, viewer.until_true(lambda: viewer.counts == (3, 0)))
                await second.share.wait_closed()
                await within(20, viewers[0].until_true(lambda: viewers[0].counts == (2, 0)))

        with RedisServer() as server:
            asyncio.run(check(server))

    def test_a_relay_that_is_killed_is_counted_no_longer(self):
        async def check(server):
            async with Published(server, CAT) as shared:
                server.call("HSET", "stream:viewers", "0" * 16, "1 9 2")
                viewer = await shared.viewer()
                await within(20, viewer.until_true(lambda: viewer.counts == (10, 2)))
                await within(20, viewer.until_true(lambda: viewer.counts == (1, 0)))
                await until(lambda: server.call("HLEN", "stream:viewers") == "0")

        with RedisServer() as server:
            asyncio.run(check(server))

    def test_random_rows(self):
        rng = random.Random(5)

        async def check(server):
            client = relaying.client_of(server)
            async with Published(server, CAT, scrollback=100) as shared, Relayed(server) as relay:
                viewer = await relay.viewer()
                await until(lambda: not relay.share.notes.is_stale)
                for _ in range(200):
                    run = rng.choice((RUN, shared.publisher.run, b"x"))
                    entry = fields(rng.randrange(99), rng.randrange(9), run, rng.randrange(99))
                    entry[rng.choice((b"rows", b"number", b"run", b"more"))] = rng.choice((b"", b"1", b"\0"))
                    await client.client.xadd("stream:rows", entry)
                writer = await shared.viewer(shared.tokens.write)
                await writer.send(b"iword\r")
                await within(20, viewer.until("word"))
            await client.close()

        with RedisServer() as server:
            asyncio.run(check(server))


if __name__ == "__main__":
    unittest.main()
