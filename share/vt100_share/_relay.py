"""A screen that comes from a stream in Redis, to which another server publishes it."""

from __future__ import annotations

import asyncio
import contextlib
import secrets
from typing import Callable, Dict, Optional, Tuple

from . import _messages as messages
from . import _stream as stream
from ._cohort import Cohort
from ._history import MAX_ROWS, Rows
from ._messages import Nonsense
from ._redis import READ_COUNT, Loss, Redis
from ._share import GAP, Audience

#: The size of the screen before there is one in the stream.
_ROWS, _COLS = 24, 80

_LIVE = "the screen is current"
_MALFORMED = "the stream has entries that no server writes: they are skipped"
_STALE = "nothing comes from the server: the screen may be old"

_NEVER = float("-inf")

#: The place before the first entry of a stream.
_START = b"0-0"

#: The number of bytes of input that may wait for Redis.
_MAX_UNSENT = 1 << 25


class RelayedRows:
    """The rows that have scrolled off the server's screen."""

    def __init__(self) -> None:
        #: Their numbers are not those of the server, which another one may replace.
        self.history = Rows(MAX_ROWS)
        self._run = b""
        self._next: Optional[int] = None
        self._start = 0  # the number of the first row that was taken, if any was
        self._has_skipped = False

    def begin(self, run: bytes) -> bool:
        """Takes the rows of the server `run` from now on. Returns whether entries of it may have
        been skipped."""
        if run == self._run:
            return False
        self._run, self._next = run, None
        self.history.discard()
        has_skipped, self._has_skipped = self._has_skipped, False
        return has_skipped

    def take(self, fields: Dict[bytes, bytes]) -> None:
        """Takes an entry, unless it is malformed or that of another server. Skips rows that are
        known. Begins anew where rows are missing, and with older rows than those that are known:
        Redis has lost them, and the server has written them again."""
        try:
            entry = stream.rows_of(fields)
        except Nonsense:
            return
        if entry.run != self._run:
            self._has_skipped = True
            return
        if self._next is None or not self._start <= entry.number <= self._next:
            if self._next is not None:
                self.history.discard()
            self._start = self._next = entry.number
        self.history.limit = min(entry.limit, MAX_ROWS)
        self.history.add(entry.rows[max(0, self._next - entry.number) :])
        self._next = max(self._next, entry.number + len(entry.rows))


class Relay(Audience):
    """Shows the screen of another server, from the stream `name`, to viewers of its own.

    The cohort's terminal reads the server's redraws and updates. By the chain law of diffs, it
    displays the server's screen, and a viewer of it is a viewer like any other. The screen is stale
    while Redis or the server is out of reach, and while entries are missing: until the next
    keyframe. With a token, what viewers type is sent to the server.
    """

    #: Half of the time between two rounds of the server: a relay that waited as long as the server
    #: would often wait for nothing, since updates do not arrive at equal times.
    gap = GAP / 2

    def __init__(
        self, redis: Redis, name: str, report: Callable[[str], None], token: Optional[str] = None
    ) -> None:
        self._rows_known = RelayedRows()
        super().__init__(Cohort(_ROWS, _COLS, history=self._rows_known.history))
        self._set_stale(True)
        self._redis, self._names, self._report = redis, stream.names_of(name), report
        self._token = None if token is None else token.encode()
        self._loss = Loss(redis, report)
        self._run = b""
        self._number = 0
        self._is_in_step = self._is_caught_up = self._has_reported = False
        self._heard = _NEVER
        self._shown: Tuple[object, ...] = ()
        self._end: Optional[int] = None
        self._total = 0, 0
        self._shows_alternate = False
        self._places: Dict[str, bytes] = {}
        self._relay = secrets.token_hex(8).encode()
        self._unsent = bytearray()
        self._typed_count = 0
        self._wake = asyncio.Event()
        self._tasks = [
            self._loop.create_task(self._follow()), self._loop.create_task(self._report_viewers())
        ]
        if self._token is not None:
            self._tasks.append(self._loop.create_task(self._send_input(self._token)))

    async def wait_closed(self) -> None:
        """Reads and sends no more, and closes the connections."""
        await self._redis.close(*self._tasks)

    # ---- what the server publishes

    async def _follow(self) -> None:
        while self.status is None:
            try:
                # Redis may have lost the streams, and may have begun them again with smaller
                # places: they are read from the beginning. What is known already is skipped.
                self._places = {self._names.screen: _START, self._names.rows: _START}
                self._is_caught_up = False
                while self.status is None:
                    await self._read()
                    self._loss.found()
            except self._redis.errors as error:
                delay = self._loss.lost(error)
                self._heard = _NEVER
                self._refresh()
                await asyncio.sleep(delay)

    async def _read(self) -> None:
        """Reads entries, and shows what they contain."""
        # The end comes after all rows, but a read that has waited for it does not return them.
        is_over = self._end is not None
        found = await self._redis.read(self._places, not is_over)
        entries, rows = found[self._names.screen], found[self._names.rows]
        for self._places[self._names.screen], fields in entries:
            if self._end is None:
                await self._take(fields)
        must_reread = self._rows_known.begin(self._run)
        for self._places[self._names.rows], fields in rows:
            self._rows_known.take(fields)
        if must_reread:
            self._places[self._names.rows] = _START
        if len(entries) < READ_COUNT:
            self._is_caught_up = True
        self._refresh()
        if is_over and self._end is not None and len(rows) < READ_COUNT and not must_reread:
            self._finish(self._end)

    async def _take(self, fields: Dict[bytes, bytes]) -> None:
        """Takes an entry. After one that no server writes, and where one is missing, the relay
        waits for a keyframe."""
        try:
            await self._take_entry(stream.entry_of(fields))
        except Nonsense:
            self._is_in_step = False
            if not self._has_reported:
                self._has_reported = True
                self._report(_MALFORMED)

    async def _take_entry(self, entry: stream.Entry) -> None:
        is_known = entry.run == self._run and entry.number <= self._number
        if is_known and not self._is_caught_up:
            return
        follows = entry.run == self._run and entry.number == self._number + 1 and self._is_in_step
        begins = entry.kind in (stream.KEYFRAME, stream.REDRAW)
        if not follows and not begins:
            # Of another server, there may be entries after it has lost the stream to this one.
            if entry.run == self._run:
                self._is_in_step = False
            return
        if self._is_caught_up:
            self._heard = self._loop.time()
        await self._apply(entry, follows)
        self._run, self._number, self._is_in_step = entry.run, entry.number, True

    async def _apply(self, entry: stream.Entry, follows: bool) -> None:
        if entry.kind == stream.REDRAW or entry.kind == stream.KEYFRAME and not follows:
            rows, cols, text = stream.screen_of(entry.body)
            self.cohort.restart(rows, cols)
            await self._process(text)
            self.cohort.advance()
        elif entry.kind == stream.UPDATE:
            rows, cols = self.cohort.screen.size
            await self._process(stream.text_of(entry.body, rows * cols))
        elif entry.kind == stream.TITLE:
            self.set_title(entry.body)
        elif entry.kind == stream.END:
            self._end = messages.status_of(entry.body)
            self._set_stale(False)
        elif entry.kind == stream.COUNTS:
            self._total = messages.counts_of(entry.body)
            self._count()
        elif entry.kind == stream.ALTERNATE:
            self._shows_alternate = messages.flag_of(entry.body)
        elif entry.kind == stream.GONE:
            self._heard = _NEVER

    async def _process(self, text: bytes) -> None:
        """Parses a text in parts, between which the event loop has its turn."""
        length = self.cohort.chunk_len
        for at in range(0, len(text), length):
            self.cohort.process(text[at : at + length])
            if at + length < len(text):
                await asyncio.sleep(0)

    def _refresh(self) -> None:
        """Shows viewers what has changed, once all that is in the stream has been read."""
        if not self._is_caught_up:
            return
        is_live = self._is_in_step and self._loop.time() - self._heard < stream.STALE_AFTER
        if self.notes.is_stale == is_live and self._end is None:
            self._set_stale(not is_live)
            if not self._loss.is_lost:
                self._report(_LIVE if is_live else _STALE)
            self._schedule()
        notes = self.notes.title_number, self._shows_alternate
        shown = self.cohort.version, *notes, self.cohort.history.end
        if self.cohort.has_changed or shown != self._shown:
            self._shown = shown
            self._schedule()

    # ---- how many viewers there are

    def _all_counts(self) -> Tuple[int, int]:
        """Returns the numbers that the server has published: they contain those of this relay, or
        will soon."""
        (viewers, writers), own = self._total, self.own_counts
        return max(viewers, own[0]), max(writers, own[1])

    async def _report_viewers(self) -> None:
        name, beat = self._names.viewers, 0
        try:
            while True:
                beat += 1
                value = stream.report(beat, *self.own_counts)
                with contextlib.suppress(*self._redis.errors):
                    await self._redis.client.hset(name, self._relay, value)
                await asyncio.sleep(stream.COUNT_GAP)
        finally:
            with contextlib.suppress(*self._redis.errors):
                await self._redis.client.hdel(name, self._relay)

    def _set_stale(self, is_stale: bool) -> None:
        self.notes = self.notes._replace(is_stale=is_stale)

    # ---- what viewers type

    @property
    def _is_alternate(self) -> bool:
        return self._shows_alternate

    @property
    def has_input_room(self) -> bool:
        return not self._unsent

    def type(self, data: bytes) -> None:
        """Sends input to the program. Drops it while the screen is stale, and if much of it is
        waiting."""
        is_full = len(self._unsent) + len(data) > _MAX_UNSENT
        if self._token is None or self.notes.is_stale or is_full:
            return
        self._unsent += data
        self._wake.set()

    async def _send_input(self, token: bytes) -> None:
        while True:
            await self._wake.wait()
            text = bytes(self._unsent[: stream.MAX_INPUT])
            del self._unsent[: stream.MAX_INPUT]
            if not self._unsent:
                self._wake.clear()
            self._typed_count += 1
            fields = stream.typed_fields(token, self._run, self._relay, self._typed_count, text)
            try:
                await self._redis.client.xadd(self._names.input, fields, maxlen=stream.INPUT_KEPT)
            except self._redis.errors:
                self._unsent.clear()
                self._wake.clear()
            self._tell_typists()
