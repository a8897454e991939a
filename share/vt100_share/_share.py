"""What is shared: a screen, where it comes from, and when viewers get updates."""

from __future__ import annotations

import asyncio
from typing import Callable, Dict, Iterator, List, Optional, Tuple

from vt100 import Replies, Screen

from . import _messages as messages
from ._cohort import Cohort
from ._history import HistorySender
from ._keys import ProgramKeys
from ._program import Program
from ._recording import Recording
from ._viewers import Notes, Viewer

#: The shortest time between two rounds of updates, in seconds.
GAP = 1 / 30

#: How many viewers get their update before the event loop has its turn.
SLICE = 500

#: The shortest time between two messages with the number of viewers, in seconds.
COUNT_GAP = 1.0

#: The number of bytes of input that may wait for the program to read them: from which on viewers
#: must wait, and after which replies to the program are dropped. Each viewer may send
#: `messages.MAX_UNTAKEN` bytes until it waits.
FULL_UNSENT, MAX_UNSENT = 4096, 1 << 18

#: The number of bytes of input after which a viewer is told that they were taken.
_TAKEN_AFTER = messages.MAX_UNTAKEN // 8

#: How often output is read after the program has ended: a process that it has left may write on.
_MAX_LAST_READS = 256

#: How long to wait for viewers that do not get on, and for all, until they have the last update, in
#: seconds. With the end of the connections, that is 15 seconds.
_FAREWELL, _LONGEST_FAREWELL = 2.0, 10.0


class Queries(Replies):
    """Replies to the program, and passes on the title of the window."""

    def __init__(
        self, send: Callable[[bytes], object], set_title: Callable[[bytes], object]
    ) -> None:
        super().__init__(send)
        self._set_title = set_title

    def set_window_title(self, screen: Screen, title: bytes) -> None:
        self._set_title(title)

    def copy_to_clipboard(self, screen: Screen, kind: bytes, data: bytes) -> None:
        """Ignores the data: a program could store any amount, under any number of names."""


class Audience:
    """A screen and its viewers. Derived classes say where the screen comes from.

    The screen becomes visible in rounds: the first one begins at once, and the next one no sooner
    than `gap` seconds later. A round makes the present screen a version, and sends each viewer what
    leads to it, except to those that have no room for more: they get it when they have.
    """

    #: What the screen comes from, in messages to the user.
    what = "the program"

    #: The shortest time between two rounds, in seconds.
    gap = GAP

    def __init__(self, cohort: Cohort) -> None:
        #: Set when the last version has begun, and when viewers have it.
        self.finished, self.ended = asyncio.Event(), asyncio.Event()
        #: Whether the present version is the last one.
        self.is_final = False
        self.status: Optional[int] = None
        self.cohort = cohort
        self.title = b""
        #: What viewers get besides the screen. Each change makes it another object.
        self.notes = Notes()
        self._writer_count = 0
        #: Whether viewers may type whose address allows it: see `allow_typing`.
        self.is_typing_allowed = True
        self._waiting_typists: Dict[Viewer, None] = {}
        self._elsewhere = 0, 0
        self._is_counting = False
        self._counted = 0.0
        self._loop = asyncio.get_running_loop()
        self._viewers: Dict[Viewer, None] = {}
        self._typists: Dict[Viewer, None] = {}
        self._listeners: List[Callable[[], None]] = []
        self._last = 0.0
        self._is_scheduled = self._must_repeat = False
        self._round: Optional[Iterator[Viewer]] = None
        self._rows = HistorySender(cohort.history, self._is_current, self._rows_sent)
        self.listen(self._rows.wake)

    # ---- viewers

    @property
    def viewer_count(self) -> int:
        return len(self._viewers)

    def listen(self, listener: Callable[[], None]) -> None:
        """Has a function called in each round, after the new version has begun."""
        self._listeners.append(listener)

    def add(self, viewer: Viewer) -> None:
        """Adds a viewer, which gets the present version."""
        self._viewers[viewer] = None
        self._writer_count += viewer.may_write
        self._count()
        viewer.send(messages.may_write(viewer.may_write and self.is_typing_allowed))
        # Added before the offer, so that the end waits for the rows if the program has ended.
        self._rows.add(viewer)
        self.offer(viewer)

    def remove(self, viewer: Viewer) -> None:
        if viewer in self._viewers:
            del self._viewers[viewer]
            self._typists.pop(viewer, None)
            self._waiting_typists.pop(viewer, None)
            self._rows.remove(viewer)
            self._writer_count -= viewer.may_write
            self._count()

    def _is_current(self, viewer: Viewer) -> bool:
        return viewer.version == self.cohort.version

    def _rows_sent(self, viewer: Viewer) -> None:
        """Sends the end, for which a viewer has waited until it had all rows."""
        if self.is_final:
            self.offer(viewer)

    def offer(self, viewer: Viewer, is_forced: bool = False) -> None:
        """Sends a viewer what it has not got, if it has room."""
        if not (viewer.has_room or is_forced):
            viewer.is_behind = True
            return
        viewer.is_behind = False
        has_notes = viewer.notes is self.notes
        # A stale mark comes before the screen that is stale, and its end after one that is not.
        if not has_notes and self.notes.is_stale and not viewer.notes.is_stale:
            viewer.send(messages.stale(True))
        if viewer.version != self.cohort.version:
            viewer.send_screen(self.cohort.message(viewer.version), self.cohort.version)
        if not has_notes:
            known, viewer.notes = viewer.notes, self.notes
            for message in self.notes_since(known):
                viewer.send(message)
            if known.is_stale and not self.notes.is_stale:
                viewer.send(messages.stale(False))
        if self.is_final and not viewer.has_end and self.status is not None:
            if is_forced:
                self._rows.send_newest(viewer)
            if self._rows.has_all(viewer):
                viewer.has_end = True
                viewer.send(messages.ended(self.status))

    def notes_since(self, known: Optional[Notes]) -> List[bytes]:
        """Returns the messages with the present notes that differ from those that are known, if
        any are. Whether the screen is stale is not among them."""
        now, found = self.notes, []
        if known is None or known.title_number != now.title_number:
            found.append(messages.title(self.title))
        if known is None or known.is_alternate != now.is_alternate:
            found.append(messages.alternate(now.is_alternate))
        if known is None or known.counts != now.counts:
            found.append(messages.counts(*now.counts))
        return found

    def receive(self, viewer: Viewer, message: bytes) -> None:
        """Takes a message of a viewer. Raises `Nonsense` if the viewer must be cut off."""
        typed = viewer.receive(message)
        if typed is not None:
            self._typists[viewer] = None
            self.type_for_viewer(typed)
            if viewer.untaken_len >= _TAKEN_AFTER:
                self._waiting_typists[viewer] = None
                self._tell_typists()
        elif viewer.is_behind:
            self.offer(viewer)

    def _tell_typists(self) -> None:
        """Tells viewers that what they have typed was taken, if there is room for more."""
        if self._waiting_typists and self.has_input_room:
            for viewer in self._waiting_typists:
                viewer.send_taken()
            self._waiting_typists.clear()

    @property
    def has_input_room(self) -> bool:
        """Whether input is taken soon."""
        return True

    def allow_typing(self, is_allowed: bool) -> None:
        """Lets viewers type, or lets none type for a while, and tells them."""
        self.is_typing_allowed = is_allowed
        for viewer in self._viewers:
            if viewer.may_write:
                viewer.send(messages.may_write(is_allowed))
        self._count()

    def type_for_viewer(self, data: bytes) -> None:
        """Takes what a viewer has typed, unless typing is not allowed."""
        if self.is_typing_allowed:
            self.type(data)

    def type(self, data: bytes) -> None:
        """Takes input. Drops it unless a derived class has a use for it."""

    def resize(self, rows: int, cols: int) -> bool:
        """Has the screen resized with the next round, if a derived class can do that. Returns
        whether it will be."""
        return False

    def set_title(self, title: bytes) -> None:
        """Sends a title to viewers with the next round."""
        if title[: messages.MAX_TITLE] != self.title:
            self.title = title[: messages.MAX_TITLE]
            self.notes = self.notes._replace(title_number=self.notes.title_number + 1)

    def _parse(self, data: bytes) -> None:
        """Parses output, and cancels a command that is too long."""
        self.cohort.process(data)
        if self.cohort.parser.pending_len > messages.MAX_COMMAND:
            self.cohort.process(messages.CANCEL)

    def _count(self) -> None:
        """Has the number of viewers sent, but no sooner than `COUNT_GAP` after the last time."""
        if not self._is_counting:
            self._is_counting = True
            wait = self._counted + COUNT_GAP - self._loop.time()
            self._loop.call_later(max(0.0, wait), self._send_counts)

    @property
    def own_counts(self) -> Tuple[int, int]:
        """How many viewers this server has, and how many of them may type."""
        return len(self._viewers), self._writer_count if self.is_typing_allowed else 0

    def count_elsewhere(self, viewers: int, writers: int) -> None:
        """Adds the viewers that other servers have to the numbers that viewers see."""
        if (viewers, writers) != self._elsewhere:
            self._elsewhere = viewers, writers
            self._count()

    def _all_counts(self) -> Tuple[int, int]:
        (viewers, writers), elsewhere = self.own_counts, self._elsewhere
        return viewers + elsewhere[0], writers + elsewhere[1]

    def _send_counts(self) -> None:
        self._is_counting = False
        counts = self._all_counts()
        if counts != self.notes.counts:
            self.notes, self._counted = self.notes._replace(counts=counts), self._loop.time()
            self._schedule()

    # ---- the end

    def close(self) -> None:
        """Frees what the screen comes from. Called at the end, or after a signal."""

    async def wait_closed(self) -> None:
        """Waits until all is freed."""

    def _finish(self, status: int) -> None:
        """Has viewers get the last version and the status, and then ends."""
        if self.status is None:
            self.status = status
            self._schedule()
            self._loop.create_task(self._farewell())

    async def _farewell(self) -> None:
        """Waits until all viewers have what there is to send, or for some seconds."""
        last, end, before = self._loop.time() + _LONGEST_FAREWELL, 0.0, -1
        while not self.is_final or self._round is not None or self._has_waiting_viewer():
            read = sum(viewer.read_len for viewer in self._viewers)
            if read != before:
                end, before = self._loop.time() + _FAREWELL, read
            if self._loop.time() >= min(end, last):
                break
            await asyncio.sleep(0.03)
        for viewer in list(self._viewers):
            if not viewer.has_end:
                self.offer(viewer, is_forced=True)
        self.ended.set()

    def _has_waiting_viewer(self) -> bool:
        return any(not viewer.has_end or not viewer.is_drained for viewer in self._viewers)

    # ---- rounds

    def _schedule(self) -> None:
        """Has a round begin as soon as one may."""
        if self._round is not None:
            self._must_repeat = True
        elif not self._is_scheduled:
            self._is_scheduled = True
            self._loop.call_later(max(0.0, self._last + self.gap - self._loop.time()), self._begin)

    def _begin(self) -> None:
        self._is_scheduled = self._must_repeat = False
        self._last = self._loop.time()
        self.is_final = self.status is not None
        self._apply_size()
        self.cohort.advance()
        if self._is_alternate != self.notes.is_alternate:
            self.notes = self.notes._replace(is_alternate=self._is_alternate)
        for listener in self._listeners:
            listener()
        if self.is_final:
            self.finished.set()
        # Who types is served first.
        self._round = iter([*self._typists, *(v for v in self._viewers if v not in self._typists)])
        self._resume()

    @property
    def _is_alternate(self) -> bool:
        """Whether the program displays the alternate screen."""
        return self.cohort.parser.alternate_screen

    def _apply_size(self) -> None:
        """Resizes the screen, if `resize` was called since the last round."""

    def _resume(self) -> None:
        """Serves the next viewers of the round."""
        assert self._round is not None
        for count, viewer in enumerate(self._round, 1):
            if viewer in self._viewers:
                self.offer(viewer)
            if count == SLICE:
                self._loop.call_soon(self._resume)
                return
        self._round = None
        if self._must_repeat:
            self._schedule()


class Share(Audience):
    """A program and its viewers. Output is parsed at once."""

    def __init__(
        self,
        program: Program,
        rows: int,
        cols: int,
        recording: Optional[Recording] = None,
        scrollback: int = 0,
        keys: Optional[ProgramKeys] = None,
    ) -> None:
        super().__init__(Cohort(rows, cols, Queries(self._reply, self.set_title), scrollback))
        self._program = program
        self._recording = recording
        self._keys = keys or ProgramKeys({})
        self._wanted_size: Optional[Tuple[int, int]] = None
        self._loop.add_reader(program.file, self._read)

    def type(self, data: bytes) -> None:
        """Sends input to the program, with the keys that it expects."""
        self._send(self._keys.translated(data, self.cohort.parser.application_cursor))

    def _reply(self, data: bytes) -> None:
        """Sends a reply to the program, unless it does not read."""
        if self._program.unsent_len + len(data) <= MAX_UNSENT:
            self._send(data)

    def _send(self, data: bytes) -> None:
        if self._program.file >= 0:
            self._program.type(data)
            self._write()

    def _write(self) -> None:
        self._program.flush()
        if self._program.unsent_len:
            self._loop.add_writer(self._program.file, self._write)
        else:
            self._loop.remove_writer(self._program.file)
        self._tell_typists()

    @property
    def has_input_room(self) -> bool:
        return self._program.unsent_len < FULL_UNSENT

    def resize(self, rows: int, cols: int) -> bool:
        """Has the program's terminal resized with the next round, so that of many sizes in a short
        time only the last one counts. Returns False if it has this size, or after the end."""
        is_over = self._program.file < 0 or self.status is not None
        if is_over or (rows, cols) == (self._wanted_size or self.cohort.parser.size):
            return False
        self._wanted_size = rows, cols
        self._schedule()
        return True

    def _apply_size(self) -> None:
        size, self._wanted_size = self._wanted_size, None
        if size is None or self._program.file < 0 or size == self.cohort.parser.size:
            return
        self._program.resize(*size)
        self.cohort.resize(*size)
        if self._recording is not None:
            self._recording.resize(*size)

    def _read(self) -> None:
        data = self._program.read(self.cohort.chunk_len)
        if data is None:
            return
        if not data:
            self._loop.remove_reader(self._program.file)
            self._loop.create_task(self._wait_for_status())
            return
        self._process(data)

    def _process(self, data: bytes) -> None:
        self._parse(data)
        if self._recording is not None:
            self._recording.output(data)
        self._schedule()

    def check_status(self) -> None:
        """Ends the share if the program has ended, even if a process that it has left keeps the
        terminal open."""
        status = self._program.exit_status
        if self._program.file < 0 or status is None or self.status is not None:
            return
        for _ in range(_MAX_LAST_READS):
            data = self._program.read(self.cohort.chunk_len)
            if not data:
                break
            self._process(data)
        self._finish(status)

    async def _wait_for_status(self) -> None:
        """Waits for a program that has closed its terminal."""
        status = self._program.exit_status
        while status is None:
            await asyncio.sleep(0.05)
            status = self._program.exit_status
        self._finish(status)

    def _finish(self, status: int) -> None:
        self._forget()
        super()._finish(status)

    def _forget(self) -> None:
        """Reads and writes no more."""
        if self._program.file >= 0:
            self._loop.remove_reader(self._program.file)
            self._loop.remove_writer(self._program.file)

    def close(self) -> None:
        """Ends the program, if it still runs, and the recording. What a program that has ended has
        left lives on."""
        self._forget()
        if self._program.exit_status is None:
            self._program.kill()
        else:
            self._program.hang_up()
        if self._recording is not None:
            self._recording.close()
