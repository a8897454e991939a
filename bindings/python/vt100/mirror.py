"""Mirrors: a terminal and its viewers."""

from __future__ import annotations

import ctypes
from typing import Any, NamedTuple, Optional, SupportsIndex, Tuple

from ._cells import Size
from ._library import MAX_SIZE, MAX_U64, check, in_range, library, size_in_range
from ._object import BytesLike, Object, as_bytes
from ._options import Repeat, diff_options


class Update(NamedTuple):
    """The escape sequences for a viewer's terminal, and the size to which the terminal must be
    resized first. The size is None if the update is a diff."""

    text: str
    size: Optional[Size] = None


class BytesUpdate(NamedTuple):
    """An `Update` whose escape sequences are encoded as UTF-8."""

    data: bytes
    size: Optional[Size] = None


class Mirror(Object):
    """A terminal that remembers, for each of its viewers, the screen of the last update.

    `scrollback` is the maximum number of scrollback rows.

    A viewer is a plain terminal (see `Screen.contents_formatted`) that reads all its updates in
    order, and thus displays the mirror's screen as it was at the last update. A viewer's first
    update, and its first update after a resize, redraws the screen; every other update is a diff
    from the screen of the previous update. A viewer may join at any time and request updates as
    rarely as it likes. If there is no viewer with the given number, methods raise `ValueError`,
    except `is_current`.
    """

    def __init__(
        self,
        rows: SupportsIndex = 24,
        cols: SupportsIndex = 80,
        scrollback: SupportsIndex = 0,
    ) -> None:
        size = size_in_range(rows, cols)
        capacity = in_range("scrollback", scrollback, 0, MAX_SIZE)
        check(library.vt100_mirror_new(*size, capacity, self._at))

    def process(self, data: BytesLike) -> None:
        """Parses bytes and applies them to the screen. Input may be split anywhere: an incomplete
        character or sequence continues with the next call."""
        self._process(as_bytes(data))

    def feed(self, text: str) -> None:
        """Encodes a string as UTF-8 and processes it."""
        self.process(text.encode())

    @property
    def is_ground(self) -> bool:
        """Whether the mirror is in ground state: no escape sequence, control string or character is
        half read."""
        return self._flag(library.vt100_is_ground)

    def set_size(self, rows: SupportsIndex, cols: SupportsIndex) -> None:
        """Resizes the terminal."""
        self._call(library.vt100_set_size, *size_in_range(rows, cols))

    def join(self) -> int:
        """Adds a viewer and returns its number, which is never reused."""
        viewer = ctypes.c_uint64()
        self._call(library.vt100_join, ctypes.byref(viewer))
        return viewer.value

    def leave(self, viewer: SupportsIndex) -> None:
        """Removes a viewer."""
        number = in_range("viewer", viewer, 0, MAX_U64)
        self._call(library.vt100_leave, number, wrong=f"there is no viewer {number}")

    def update(self, viewer: SupportsIndex) -> Update:
        """Returns the next update of a viewer. The updates after it assume that the viewer has read
        it."""
        return self._update(library.vt100_update, viewer)

    def update_scrolling(self, viewer: SupportsIndex) -> Update:
        """Returns the next update of a viewer. A diff may begin by moving rows or columns, and is
        never longer than that of `update`, or than the redraw.

        If the screen of the viewer's last update was not steady (see `Screen.is_steady`), the
        update is a redraw, which corrects the viewer's display.
        """
        return self._update(library.vt100_update_scrolling, viewer)

    def update_with(
        self,
        viewer: SupportsIndex,
        *,
        scroll: bool = False,
        repeat: Repeat = Repeat.NEVER,
        portable: bool = False,
    ) -> Update:
        """Returns the next update of a viewer. A diff is never longer than that of `update` or,
        with `portable`, than its portable form (see `Screen.contents_formatted`). With `scroll`, a
        diff may begin by moving rows or columns, and the update may be a redraw, as with
        `update_scrolling`. Runs within a row of the one-column characters that `repeat` allows may
        be written with REP (ECMA-48, 8.3.103); some terminals ignore REP. With `portable`, diffs
        and redraws avoid sequences on whose effects real terminals disagree.
        """
        options = diff_options(scroll, repeat, portable)
        return self._update(library.vt100_update_with, viewer, options)

    def update_bytes(
        self,
        viewer: SupportsIndex,
        *,
        scroll: bool = False,
        repeat: Repeat = Repeat.NEVER,
        portable: bool = False,
    ) -> BytesUpdate:
        """Returns the next update of a viewer like `update_with`, but as bytes, without making a
        string first."""
        options = diff_options(scroll, repeat, portable)
        return BytesUpdate(*self._update_parts(library.vt100_update_with, viewer, options))

    def is_current(self, viewer: SupportsIndex) -> bool:
        """Returns whether a viewer is known to be up to date. If it is, its next update is an empty
        diff, except that `update_scrolling` and the option `scroll` redraw a screen that is not
        steady.

        Returns False if the viewer has had no update since it joined or since the last resize, if
        `process` was called since its last update (even if nothing displayed has changed), and if
        there is no viewer with this number.
        """
        current = ctypes.c_uint8()
        number = in_range("viewer", viewer, 0, MAX_U64)
        self._call(library.vt100_mirror_is_current, number, ctypes.byref(current))
        return current.value == 1

    def _update(self, function: Any, viewer: SupportsIndex, *options: int) -> Update:
        data, size = self._update_parts(function, viewer, *options)
        return Update(data.decode(), size)

    def _update_parts(
        self, function: Any, viewer: SupportsIndex, *options: int
    ) -> Tuple[bytes, Optional[Size]]:
        number = in_range("viewer", viewer, 0, MAX_U64)
        rows, cols = ctypes.c_uint16(), ctypes.c_uint16()
        size = ctypes.byref(rows), ctypes.byref(cols)
        wrong = f"there is no viewer {number}"
        data = self._bytes(function, number, *options, *size, wrong=wrong)
        return data, Size(rows.value, cols.value) if rows.value else None

    def __repr__(self) -> str:
        name = f"{type(self).__module__}.{type(self).__qualname__}"
        return f"<{name}{' closed' if self._is_closed else ''}>"
