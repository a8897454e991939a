"""Publishes a shared screen to a stream in Redis, from which relays serve viewers of their own."""

from __future__ import annotations

import asyncio
import collections
import contextlib
import math
import secrets
from typing import Callable, Deque, Dict, List, Optional, Tuple

from . import _messages as messages
from . import _stream as stream
from ._history import Rows
from ._redis import Loss, Redis
from ._share import GAP, Audience
from ._viewers import Notes

#: The longest time between two keyframes, in seconds, and the number of bytes of updates after
#: which one is due earlier.
KEYFRAME_GAP, KEYFRAME_BYTES = 5.0, 1 << 20

#: How long the end may take to reach Redis, in seconds.
_PATIENCE = 3.0

#: After how many seconds Redis forgets the streams of a server that has vanished, and of one that
#: has ended.
_KEPT, _KEPT_AFTER_END = 3600, 60

#: Of how many relays input is accepted.
_MAX_RELAYS = 1024


class PublishedRows:
    """Which rows that have scrolled off have been published, and where."""

    def __init__(self, history: Rows, run: bytes) -> None:
        self._history, self._run = history, run
        self._row: Optional[int] = None
        self._places: Deque[Tuple[bytes, int]] = collections.deque()

    def begin(self) -> None:
        """Begins anew: nothing has been published."""
        self._row = None
        self._places.clear()

    @property
    def entry_count(self) -> int:
        """How many entries there are."""
        return len(self._places)

    @property
    def has_more(self) -> bool:
        """Whether there are rows to publish."""
        is_new = self._row is None and self._history.end == self._history.first
        return not is_new and self._row != self._history.end

    def next(self) -> Optional[stream.RowsEntry]:
        """Returns the next rows to publish, or None if there are none."""
        if not self.has_more:
            return None
        number, rows = self._history.after(self._row, stream.ROWS_SIZE)
        self._row = number + len(rows)
        return stream.RowsEntry(self._run, number, self._history.limit, rows)

    def added(self, entry: stream.RowsEntry, place: bytes) -> Optional[bytes]:
        """Takes note of the place of an entry. Returns that of the oldest entry with rows that are
        still kept, if there are older ones."""
        self._places.append((place, entry.number + len(entry.rows)))
        has_older = False
        while len(self._places) > 1 and self._places[0][1] <= self._history.first:
            self._places.popleft()
            has_older = True
        return self._places[0][0] if has_older else None


class Census:
    """Counts the viewers of relays, from what these report. A relay whose report stays the same has
    ended."""

    def __init__(self) -> None:
        self._known: Dict[bytes, Tuple[bytes, float]] = {}
        #: The relays that have ended.
        self.gone: List[bytes] = []

    def count(self, reports: Dict[bytes, bytes], now: float) -> Tuple[int, int]:
        """Returns the numbers of viewers and of writers."""
        known, self._known, self.gone = self._known, {}, []
        viewers = writers = 0
        for relay, value in list(reports.items())[:_MAX_RELAYS]:
            before = known.get(relay)
            since = before[1] if before is not None and before[0] == value else now
            try:
                more_viewers, more_writers = stream.report_of(value)
            except messages.Nonsense:
                since = -math.inf
            if now - since > stream.UNCOUNTED_AFTER:
                self.gone.append(relay)
                continue
            self._known[relay] = value, since
            viewers += more_viewers
            writers += more_writers
        return viewers, writers


class Taken(Exception):
    """Raised when the stream belongs to another server."""


class Publisher:
    """Writes the versions of a screen to a stream.

    It is like a viewer: while Redis is slow, versions are left out. With a token, it also has the
    program read what viewers of relays type. After an error, it begins anew with a keyframe.
    """

    def __init__(
        self,
        share: Audience,
        redis: Redis,
        name: str,
        report: Callable[[str], None],
        token: Optional[str] = None,
        linger: float = 0.0,
    ) -> None:
        self._share, self._redis, self._report = share, redis, report
        self._names = stream.names_of(name)
        self._token = None if token is None else token.encode()
        self._linger = linger
        self.run = secrets.token_hex(8).encode()
        self._loss = Loss(redis, report)
        self._loop = asyncio.get_running_loop()
        self._number = 0
        self._version: Optional[int] = None
        self._notes: Optional[Notes] = None  # which have been published since the last keyframe
        self._keyframe_at = 0.0
        self._update_len = 0
        self._last_keyframe: Optional[bytes] = None
        self._is_claimed = self._is_leaving = False
        self._wake, self._over = asyncio.Event(), asyncio.Event()
        self._last_numbers: Dict[bytes, int] = {}
        self._rows = PublishedRows(share.cohort.history, self.run)
        self._census = Census()
        share.listen(self._wake.set)
        self._tasks = [
            self._loop.create_task(self._publish()), self._loop.create_task(self._count_viewers())
        ]
        if self._token is not None:
            self._tasks.append(self._loop.create_task(self._read_input(self._token)))

    async def close(self) -> None:
        """Publishes the end, unless that takes too long, and ends."""
        self._is_leaving = True
        self._wake.set()
        if self._share.status is not None or not self._loss.is_lost:
            with contextlib.suppress(asyncio.TimeoutError):
                await asyncio.wait_for(self._over.wait(), _PATIENCE)
        await self._redis.close(*self._tasks)

    # ---- what the program shows

    async def _publish(self) -> None:
        while not self._over.is_set():
            try:
                await self._begin()
                while not self._over.is_set():
                    await self._publish_once()
                    self._loss.found()
            except Taken:
                self._report("another server publishes to this stream: publishing ends")
                self._over.set()
            except self._redis.errors as error:
                await asyncio.sleep(self._loss.lost(error))

    async def _begin(self) -> None:
        """Takes the stream, unless it has been taken by another server since it was taken by this
        one."""
        # An entry may have been written without a reply. The number that is left out has relays
        # take the keyframe.
        self._number += 2
        self._version = self._last_keyframe = None
        if self._is_claimed:
            self._check_owner(await self._redis.client.get(self._names.owner))
        else:
            await self._redis.client.set(self._names.owner, self.run, ex=_KEPT)
            self._is_claimed = True
        await self._redis.client.delete(self._names.rows)
        self._rows.begin()

    async def _publish_once(self) -> None:
        """Publishes what there is to publish, and waits until there is more."""
        self._wake.clear()
        has_keyframe = self._is_keyframe_due()
        if has_keyframe:
            await self._check_keys()
        rows = self._rows.next()
        due = self._due(has_keyframe)
        if due or rows is not None:
            await self._add(due, has_keyframe, rows)
        if self._over.is_set():
            return
        try:
            wait = GAP if self._rows.has_more else stream.ALIVE_GAP
            await asyncio.wait_for(self._wake.wait(), wait)
        except asyncio.TimeoutError:
            if not self._rows.has_more:
                await self._add([stream.ALIVE], False)

    def _is_keyframe_due(self) -> bool:
        """Whether there is none, or the last one is old. The end follows a keyframe, so that relays
        that have missed entries get it, too."""
        is_end = self._is_leaving or self._share.is_final
        is_old = self._loop.time() - self._keyframe_at >= KEYFRAME_GAP
        return self._version is None or is_end or is_old or self._update_len >= KEYFRAME_BYTES

    def _due(self, has_keyframe: bool) -> List[bytes]:
        """Returns the messages that lead to the present version, and a keyframe of it."""
        share, cohort, due = self._share, self._share.cohort, []
        if self._version is not None and self._version != cohort.version:
            due.append(cohort.message(self._version))
            self._update_len += len(due[0])
        self._version = cohort.version
        if has_keyframe:
            due.append(stream.KEYFRAME + cohort.message(None)[1:])
            self._keyframe_at, self._update_len = self._loop.time(), 0
        due += share.notes_since(None if has_keyframe else self._notes)
        self._notes = share.notes
        if share.is_final and share.status is not None and not self._rows.has_more:
            due.append(stream.END + b"%d" % share.status)
        elif self._is_leaving and share.status is None:
            due.append(stream.GONE)
        return due

    async def _check_keys(self) -> None:
        """Checks the owner, and begins the rows anew if Redis has lost them."""
        names, client = self._names, self._redis.client
        self._check_owner(await client.get(names.owner))
        if await client.xlen(names.rows) != self._rows.entry_count:
            await client.delete(names.rows)
            self._rows.begin()

    def _check_owner(self, owner: Optional[bytes]) -> None:
        if owner is not None and owner != self.run:
            raise Taken()

    async def _add(
        self, due: List[bytes], has_keyframe: bool, rows: Optional[stream.RowsEntry] = None
    ) -> None:
        """Adds messages to the stream, and rows to that of the rows."""
        is_end = bool(due) and due[-1][:1] in (stream.END, stream.GONE)
        keyframe = 0
        async with self._redis.client.pipeline(transaction=True) as calls:
            calls.get(self._names.owner)
            for position, message in enumerate(due, 1):
                self._number += 1
                fields = {b"run": self.run, b"number": b"%d" % self._number, b"message": message}
                calls.xadd(self._names.screen, fields)
                if message[:1] == stream.KEYFRAME:
                    keyframe = position
            if rows is not None:
                calls.xadd(self._names.rows, stream.rows_fields(*rows))
            if is_end or has_keyframe:
                seconds = _KEPT_AFTER_END + int(self._linger) if is_end else _KEPT
                calls.set(self._names.owner, self.run, nx=True)
                for name in self._names:
                    calls.expire(name, seconds)
            results = await calls.execute()
        self._check_owner(results[0])
        if rows is not None:
            await self._trim_rows(rows, results[len(due) + 1])
        if has_keyframe:
            await self._trim(results[keyframe])
        if is_end:
            self._over.set()

    async def _trim(self, keyframe: bytes) -> None:
        """Removes what is older than the keyframe before this one, which slow relays may still
        read."""
        oldest = self._last_keyframe or keyframe
        self._last_keyframe = keyframe
        await self._redis.client.xtrim(self._names.screen, minid=oldest, approximate=False)

    async def _trim_rows(self, rows: stream.RowsEntry, place: bytes) -> None:
        """Removes the rows that are no longer kept, after some were added at a place."""
        oldest = self._rows.added(rows, place)
        if oldest is not None:
            await self._redis.client.xtrim(self._names.rows, minid=oldest, approximate=False)

    # ---- the viewers of relays

    async def _count_viewers(self) -> None:
        """Counts them, once a second."""
        name = self._names.viewers
        while True:
            with contextlib.suppress(*self._redis.errors):
                reports = await self._redis.client.hgetall(name)
                found = self._census.count(reports, self._loop.time())
                self._share.count_elsewhere(*found)
                for relay in self._census.gone:
                    await self._redis.client.hdel(name, relay)
            await asyncio.sleep(stream.COUNT_GAP)

    # ---- what viewers of relays type

    async def _read_input(self, token: bytes) -> None:
        name, place = self._names.input, b"0-0"
        while True:
            try:
                entries = (await self._redis.read({name: place}))[name]
                for place, fields in entries:
                    self._take(token, fields)
                while not self._share.has_input_room:
                    await asyncio.sleep(GAP)
            except self._redis.errors:
                place = b"0-0"  # the stream may be a new one; what was read is not read again
                await asyncio.sleep(1.0)

    def _take(self, token: bytes, fields: Dict[bytes, bytes]) -> None:
        """Has the program read what was typed, unless it is forged or was read before."""
        try:
            typed = stream.typed_of(token, self.run, fields)
        except messages.Nonsense:
            return
        if typed is None or typed.number <= self._last_numbers.get(typed.relay, -1):
            return
        if typed.relay in self._last_numbers or len(self._last_numbers) < _MAX_RELAYS:
            self._last_numbers[typed.relay] = typed.number
            self._share.type_for_viewer(typed.text)
