"""The screen of the program, and the updates that take viewers from one version to the next."""

from __future__ import annotations

from typing import Dict, Optional

from vt100 import Callbacks, Charsets, Parser

from . import _messages as messages
from ._history import History, Rows

#: The number of past updates that are kept for viewers that missed some, and that of their bytes.
KEPT, MAX_KEPT = 64, 1 << 20

#: How many bytes of output are parsed at a time: at most, and if each of them erases a quarter of
#: this number of cells.
_CHUNK, _CHUNK_CELLS = 4096, 80_000_000


class Cohort:
    """A terminal whose viewers share their updates.

    The screen is cut into versions, which are numbered. A viewer displays one of them, or none
    before its first message: `message(version)` returns what takes it to `self.version`. A version
    costs a few calls of the library, however many viewers there are. A viewer that missed some
    updates gets these, joined, or a redraw if that is shorter or if the updates are no longer kept.
    An update from a version that was not steady would not correct it: every viewer gets a redraw.

    The screen of the parser is newer than the version, and its callbacks reply to the program
    without delay.
    """

    def __init__(
        self,
        rows: int,
        cols: int,
        callbacks: Optional[Callbacks] = None,
        scrollback: int = 0,
        history: Optional[Rows] = None,
    ) -> None:
        #: The rows that had scrolled off when the version began: at most `scrollback` of the
        #: parser's, or `history`, which others come from.
        self.history = History(scrollback) if history is None else history
        self._scrollback = scrollback
        self.version = 0
        self._callbacks = callbacks
        self._begin(rows, cols)

    def _begin(self, rows: int, cols: int) -> None:
        self.parser = Parser(rows, cols, self._scrollback, self._callbacks)
        self._charsets = Charsets()
        self.has_changed = False
        #: The screen of the present version.
        self.screen = self.parser.shown_copy()
        self._updates: Dict[int, bytes] = {}  # by the version from which they lead to the next one
        self._updates_len = 0
        self._made: Dict[Optional[int], bytes] = {}

    def restart(self, rows: int, cols: int) -> None:
        """Replaces the terminal by a new one, and makes its screen the version. No update leads
        there: every viewer gets a redraw."""
        self._begin(rows, cols)
        self.version += 1

    def resize(self, rows: int, cols: int) -> None:
        """Resizes the terminal, and makes its screen the version. Every viewer gets a redraw."""
        if cols < self.parser.columns:
            # Rows scroll off as they are before columns are cut off.
            self.parser.set_size(rows, self.parser.columns)
            self.history.take(self.parser)
        self.parser.set_size(rows, cols)
        self.has_changed = True
        self.advance()

    @property
    def chunk_len(self) -> int:
        """How many bytes of output to process before the event loop has its turn."""
        rows, cols = self.screen.size
        return max(64, min(_CHUNK, _CHUNK_CELLS // (rows * cols)))

    def process(self, data: bytes) -> None:
        """Parses output of the program, with its line drawing translated. The next version will
        contain it."""
        self.has_changed = True
        self.parser.process(self._charsets.translate(data))

    def advance(self) -> None:
        """Makes the present screen the version, if it has changed since the last one."""
        if not self.has_changed:
            return
        self.has_changed = False
        self.history.take(self.parser)
        update = self._update()
        if update is not None and not update:
            return  # nothing has changed that viewers see
        self._made.clear()
        self._keep(update)
        self.screen = self.parser.shown_copy()
        self.version += 1

    def _update(self) -> Optional[bytes]:
        """Returns what takes viewers from the version to the present screen, or None if they need a
        redraw."""
        if self.parser.size != self.screen.size or not self.screen.is_steady():
            return None
        return self.parser.state_diff_bytes(self.screen, scroll=True)

    def _keep(self, update: Optional[bytes]) -> None:
        """Keeps an update, and no more than the last ones."""
        if update is None:
            self._updates.clear()
            self._updates_len = 0
            return
        self._updates[self.version] = update
        self._updates_len += len(update)
        while len(self._updates) > KEPT or self._updates_len > MAX_KEPT:
            self._updates_len -= len(self._updates.pop(next(iter(self._updates))))

    def message(self, version: Optional[int]) -> bytes:
        """Returns the message that takes a viewer from a version, or None, to the present one."""
        if version not in self._made:
            self._made[version] = self._message(version)
        return self._made[version]

    def _message(self, version: Optional[int]) -> bytes:
        if version is None:
            rows, cols = self.screen.size
            return messages.redraw(rows, cols, self.screen.state_formatted_bytes())
        if version not in self._updates:
            return self.message(None)
        missed = [self._updates[number] for number in range(version, self.version)]
        update = messages.update(b"".join(missed))
        if len(missed) == 1 or len(update) <= len(self.message(None)):
            return update
        return self.message(None)
