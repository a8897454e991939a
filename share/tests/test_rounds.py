"""Tests of the rounds of vt100-share without connections: who gets what, in which order, and what is kept."""

import asyncio
import struct
import time
import unittest
from unittest import mock

from sharing import Shared, needs_websockets
from vt100_share import _history, _share
from vt100_share._cohort import KEPT, MAX_KEPT, Cohort
from vt100_share._history import History, HistorySender
from vt100_share._messages import Nonsense, Row
from vt100_share._share import Audience
from vt100_share._viewers import WINDOW, Viewer


async def until(condition, seconds=20):
    end = time.monotonic() + seconds
    while not condition():
        if time.monotonic() > end:
            raise AssertionError("waited in vain")
        await asyncio.sleep(0.005)


class Watched:
    """A viewer, and the kinds of the messages that it was sent. It acknowledges all at once."""

    def __init__(self, log, number=0, may_write=False, acknowledges=True):
        self.viewer, self.messages = Viewer(may_write, self._take), []
        self.log, self.number, self.acknowledges = log, number, acknowledges

    def _take(self, message):
        self.messages.append(message)
        self.log.append((self.number, message[:1]))
        if self.acknowledges:
            asyncio.get_running_loop().call_soon(self.acknowledge)

    def acknowledge(self):
        self.viewer.read_len = self.viewer._sent

    @property
    def kinds(self):
        return b"".join(message[:1] for message in self.messages)


class Case(unittest.TestCase):
    def run_with(self, check, scrollback=0, size=(3, 20)):
        async def run():
            audience = Audience(Cohort(*size, scrollback=scrollback))
            await asyncio.wait_for(check(audience), 60)

        asyncio.run(run())

    async def round(self, audience, data=b""):
        """Has a round begin, and waits for its end."""
        audience.cohort.process(data)
        audience._begin()
        await until(lambda: audience._round is None)

    def join(self, audience, count, **how):
        """Adds viewers, and returns them with the list of all messages."""
        log = []
        watched = [Watched(log, number, **how) for number in range(count)]
        for one in watched:
            audience.add(one.viewer)
        return watched, log


class Rounds(Case):
    def test_all_viewers_are_served_in_slices(self):
        async def check(audience):
            watched, _ = self.join(audience, 10)
            await self.round(audience, b"word")
            self.assertEqual([one.messages.count(b"Dword") for one in watched], [1] * 10)

        with mock.patch.object(_share, "SLICE", 3):
            self.run_with(check)

    def test_who_types_is_served_first(self):
        async def check(audience):
            watched, log = self.join(audience, 6, may_write=True)
            await self.round(audience)
            for number in (4, 2):
                audience.receive(watched[number].viewer, b"ix")
            log.clear()
            await self.round(audience, b"word")
            order = [number for number, kind in log if kind == b"D"]
            self.assertEqual(order, [4, 2, 0, 1, 3, 5])

        self.run_with(check)

    def test_a_stale_mark_comes_before_the_screen_and_its_end_after_it(self):
        async def check(audience):
            (one,), log = self.join(audience, 1)
            await self.round(audience)
            log.clear()
            audience.notes = audience.notes._replace(is_stale=True)
            await self.round(audience, b"old")
            audience.notes = audience.notes._replace(is_stale=False)
            await self.round(audience, b"new")
            self.assertEqual([kind for _, kind in log], [b"S", b"D", b"D", b"S"])
            self.assertEqual([message for message in one.messages if message[:1] == b"S"], [b"S1", b"S0"])

        self.run_with(check)

    def test_nothing_is_kept_of_those_who_have_gone(self):
        async def check(audience):
            watched, _ = self.join(audience, 50, may_write=True)
            for one in watched:
                audience.receive(one.viewer, b"ix")
                audience.remove(one.viewer)
            self.assertEqual((audience._viewers, audience._typists), ({}, {}))
            self.assertEqual(audience.own_counts, (0, 0))
            self.assertEqual((audience._rows._viewers, audience._rows._waiting), ({}, {}))

        self.run_with(check, scrollback=9)

    def test_few_updates_are_kept(self):
        cohort = Cohort(24, 80)
        for number in range(1000):
            cohort.process(b"\x1b[%d;1H%d" % (number % 24, number))
            cohort.advance()
            cohort.message(max(0, cohort.version - number % 70))
            self.assertLessEqual(len(cohort._updates), KEPT)
            self.assertLessEqual(len(cohort._made), 2)
        picture = b"".join(b"\x1b[38;2;%d;%d;%dm#" % (k % 256, k // 256, k % 7) for k in range(24 * 80))
        for number in range(60):
            cohort.process(b"\x1b[H" + picture.replace(b"#", b"%d" % (number % 10)))
            cohort.advance()
            self.assertEqual(cohort._updates_len, sum(map(len, cohort._updates.values())))
            self.assertLessEqual(cohort._updates_len, MAX_KEPT)
        self.assertLess(len(cohort._updates), 60)

    def test_a_large_screen_is_parsed_in_small_parts(self):
        for size, length in (((24, 80), 4096), ((60, 200), 4096), ((500, 1000), 160)):
            self.assertEqual(Cohort(*size).chunk_len, length)


class Scrolled(Case):
    def test_all_viewers_get_rows_in_slices(self):
        async def check(audience):
            watched, _ = self.join(audience, 10)
            await self.round(audience, b"".join(b"%d\r\n" % number for number in range(9)))
            await until(lambda: all(one.viewer.row == audience.cohort.history.end for one in watched))
            for one in watched:
                rows = [message for message in one.messages if message[:1] == b"H"]
                self.assertIn(b"0\r\n1\r\n", rows[-1])

        with mock.patch.object(_history, "SLICE", 3):
            self.run_with(check, scrollback=50)

    def test_updates_come_before_rows(self):
        async def check(_):
            history, current, log = History(9), set(), []
            history.add([Row(10, b"row\r\n")])
            watched = [Watched(log, number) for number in range(2)]
            sender = HistorySender(history, lambda viewer: viewer in current, lambda viewer: None)
            for one in watched:
                sender.add(one.viewer)
            current.add(watched[1].viewer)
            await until(lambda: log)
            await asyncio.sleep(0.1)
            self.assertEqual(log, [(1, b"H")])
            current.add(watched[0].viewer)
            await until(lambda: len(log) == 2)
            self.assertTrue(sender.has_all(watched[0].viewer))

        self.run_with(check)

    def test_rows_that_the_parser_may_have_dropped_leave_a_gap_in_the_numbers(self):
        cohort = Cohort(2, 20, scrollback=5)
        cohort.process(b"0\r\n1\r\n2\r\n3\r\n")
        cohort.advance()
        history = cohort.history
        end = history.end
        self.assertEqual(end - history.first, 3)
        cohort.process(b"".join(b"%d\r\n" % number for number in range(4, 24)))
        cohort.advance()
        number, _ = struct.unpack_from(">IH", history.part(end).message, 1)
        self.assertGreater(number, end)

    def _newest(self, number, count):
        """Returns the number of the first row and the rows of the newest message."""
        history = History(1000)
        history.add([Row(98, b"%03d %s\r\n" % (row, b"-" * 94)) for row in range(count)])
        part = history.newest(number)
        self.assertEqual(part.end, count)
        first, length, cols = struct.unpack_from(">IHH", part.message, 1)
        self.assertEqual(cols, 98)
        rows = part.message[9:].splitlines()
        self.assertEqual(len(rows), length)
        return first, [int(row[:3]) for row in rows]

    def test_the_newest_rows(self):
        self.assertEqual(self._newest(None, 200), (159, list(range(159, 200))))
        self.assertEqual(self._newest(3, 200), (159, list(range(159, 200))))
        self.assertEqual(self._newest(190, 200), (190, list(range(190, 200))))
        self.assertEqual(self._newest(None, 10), (0, list(range(10))))

    def test_who_does_not_get_on_ends_with_the_rows_above_the_screen(self):
        async def check(audience):
            (one, slow), _ = self.join(audience, 2)
            slow.acknowledges = False
            lines = b"".join(b"%03d %s\r\n" % (row, b"-" * 94) for row in range(300))
            await self.round(audience, lines)
            await until(lambda: one.viewer.row == audience.cohort.history.end)
            await until(lambda: slow.messages[-1][:1] == b"H" and not slow.viewer.has_room)
            audience._finish(7)
            await until(audience.ended.is_set)
            self.assertEqual(one.messages[-1], b"X7")
            self.assertEqual(slow.messages[-1], b"X7")
            for watched in (one, slow):
                rows = [message for message in watched.messages if message[:1] == b"H"]
                self.assertIn(b"297 ", rows[-1])
            self.assertLess(slow.kinds.count(b"H"), one.kinds.count(b"H"))

        with mock.patch.object(_share, "_FAREWELL", 0.2):
            self.run_with(check, scrollback=1000, size=(3, 120))


class Ends(Case):
    def test_a_farewell_ends_although_a_viewer_reads_on(self):
        async def check(audience):
            (slow,), _ = self.join(audience, 1, acknowledges=False)
            slow.viewer.send_screen(bytes(3 * WINDOW), audience.cohort.version)
            start = time.monotonic()
            audience._finish(3)
            await until(audience.finished.is_set)
            while not audience.ended.is_set():
                slow.viewer.read_len += 1
                await asyncio.sleep(0.02)
            self.assertGreater(time.monotonic() - start, 0.6)
            self.assertLess(time.monotonic() - start, 10)
            self.assertEqual(slow.messages[-1], b"X3")

        with mock.patch.multiple(_share, _FAREWELL=0.5, _LONGEST_FAREWELL=0.7):
            self.run_with(check)

    def test_the_last_version_comes_before_the_farewell(self):
        async def check(audience):
            (slow,), _ = self.join(audience, 1, acknowledges=False)
            slow.viewer.is_drained = False
            audience.cohort.process(b"last")
            audience._finish(0)
            await until(audience.finished.is_set)
            self.assertFalse(audience.ended.is_set())
            self.assertEqual(audience.cohort.screen.contents(), "last")

        with mock.patch.object(_share, "_FAREWELL", 0.3):
            self.run_with(check)

    @needs_websockets
    def test_output_that_was_not_read_before_the_end_is_shown(self):
        async def check():
            script = "printf first; sleep 0.2; seq 2000; printf last; sleep 60 & exit 3"
            async with Shared(["sh", "-c", script]) as shared:
                loop = asyncio.get_running_loop()
                await until(lambda: "first" in shared.share.cohort.parser.contents())
                loop.remove_reader(shared.program.file)
                reading = []
                while shared.program.status is None:  # the terminal has no room for all of the output
                    if len(reading) < 2:
                        reading.append(shared.program.read(4096))
                    await asyncio.sleep(0.01)
                shared.share.check_status()
                self.assertEqual(shared.share.status, 3)
                self.assertTrue(shared.share.cohort.parser.contents().endswith("2000\nlast"))

        asyncio.run(check())


class Acknowledgements(unittest.TestCase):
    def test_no_more_may_be_acknowledged_than_was_sent(self):
        viewer = Viewer(False, lambda message: None)
        viewer.send_screen(bytes(100), 1)
        for count in (60, 60, 100):
            viewer.receive(b"a" + struct.pack(">I", count))
            self.assertEqual(viewer.read_len, count)
        viewer.send_screen(bytes(10), 2)
        for count in (99, 111, 0):
            with self.subTest(count), self.assertRaises(Nonsense):
                viewer.receive(b"a" + struct.pack(">I", count))
        viewer.receive(b"a" + struct.pack(">I", 110))

    def test_the_count_is_modulo(self):
        viewer = Viewer(False, lambda message: None)
        viewer._sent, viewer.read_len = (1 << 32) + 5, (1 << 32) - 5
        viewer.receive(b"a" + struct.pack(">I", 3))
        self.assertEqual(viewer.read_len, (1 << 32) + 3)


if __name__ == "__main__":
    unittest.main()
