"""Parsers."""

from __future__ import annotations

import ctypes
from typing import NoReturn, Sequence, SupportsIndex, Tuple, Union

from . import _events
from ._library import MAX_SIZE, Handle, check, in_range, library, size_in_range
from ._object import BytesLike, as_bytes
from .callbacks import Callbacks
from .screen import Screen


class _Titles(Callbacks):
    """The title and the icon name of the window."""

    title = ""
    icon_name = ""

    def set_window_title(self, screen: Screen, title: bytes) -> None:
        self.title = title.decode(errors="replace")

    def set_window_icon_name(self, screen: Screen, icon_name: bytes) -> None:
        self.icon_name = icon_name.decode(errors="replace")


class Parser(Screen):
    """A screen with a parser that applies bytes to it.

    `scrollback` is the maximum number of scrollback rows. The methods of `callbacks` are invoked
    for bells, titles and other events; if it is a sequence of objects, each event is passed to each
    of them, in order. In a `with` statement, the parser is freed at the end.
    """

    _callbacks: Union[None, Callbacks, Sequence[Callbacks]] = None
    _is_reporting = False

    def __init__(
        self,
        rows: SupportsIndex = 24,
        cols: SupportsIndex = 80,
        scrollback: SupportsIndex = 0,
        callbacks: Union[None, Callbacks, Sequence[Callbacks]] = None,
    ) -> None:
        own = _as_sequence(callbacks)
        size = size_in_range(rows, cols)
        capacity = in_range("scrollback", scrollback, 0, MAX_SIZE)
        titles = _Titles()
        listeners = _events.Listeners([titles, *own])
        check(library.vt100_parser_new(*size, capacity, listeners.wanted, self._at))
        self._callbacks, self._capacity = callbacks, capacity
        self._titles, self._listeners = titles, listeners
        # Callbacks for rows are not passed the screen, so rows can be reported together.
        self._is_bulk = _events.Listeners(own).wanted == 1 << _events.ON_SCROLL

    @property
    def screen(self) -> Screen:
        """The screen of the parser, which is the parser itself. `save` returns a copy."""
        return self

    @property
    def callbacks(self) -> Union[None, Callbacks, Sequence[Callbacks]]:
        """The callbacks passed to the constructor."""
        return self._callbacks

    @property
    def title(self) -> str:
        """The title of the window (OSC 0 and 2). Bytes that are not UTF-8 are replaced by U+FFFD,
        and a title of more than about 512 KiB may be ignored."""
        return self._titles.title

    @property
    def icon_name(self) -> str:
        """The icon name of the window (OSC 0 and 1), with the limits of `title`."""
        return self._titles.icon_name

    def process(self, data: BytesLike) -> None:
        """Parses bytes and applies them to the screen, invoking callbacks as sequences complete.
        Input may be split anywhere: an incomplete character or sequence continues with the next
        call."""
        data = as_bytes(data)
        with self._lock:
            if self._is_reporting:
                raise RuntimeError("process was called by a callback of the same parser")
            self._process(data)

    def feed(self, text: str) -> None:
        """Encodes a string as UTF-8 and processes it."""
        self.process(text.encode())

    def _process(self, data: bytes) -> None:
        """Processes input, and reports each event at the byte that causes it, or many rows that
        scrolled off together."""
        read = library.vt100_process_until_full if self._is_bulk else library.vt100_process_until
        start = ctypes.cast(ctypes.c_char_p(data), ctypes.c_void_p).value or 0
        at, used = 0, ctypes.c_size_t()
        while at < len(data):
            used.value = 0
            status = read(self._at, start + at, len(data) - at, ctypes.byref(used))
            at += used.value
            self._report()
            check(status)

    @property
    def is_ground(self) -> bool:
        """Whether the parser is in ground state: no escape sequence, control string or character is
        half read."""
        return self._flag(library.vt100_is_ground)

    @property
    def scrollback_erasures(self) -> int:
        """How often the input has asked to erase scrollback: the number of RIS (`ESC c`) and ED 3
        (`CSI 3 J` or `CSI ? 3 J`) sequences that were processed, even if there was nothing to
        erase. If the number has changed, copies of scrollback rows that were made before are
        outdated. `reset` sets it to 0."""
        count = ctypes.c_uint64()
        self._call(library.vt100_scrollback_erasures, ctypes.byref(count))
        return count.value

    @property
    def pending_len(self) -> int:
        """The number of bytes that the parser keeps for an unfinished operating system command
        (OSC): the bytes read after `ESC ]`, not counting control characters. Only memory limits the
        length of a command. To enforce a limit of your own, process CAN (`b"\\x18"`): the part of
        the command that was read is dispatched, and `unhandled_control` is invoked for CAN."""
        length = ctypes.c_size_t()
        self._call(library.vt100_pending_len, ctypes.byref(length))
        return length.value

    def set_size(self, rows: SupportsIndex, cols: SupportsIndex) -> None:
        """Resizes the terminal, invoking `on_scroll` for rows that scroll off and are not kept. A
        call from within a callback invokes no callbacks."""
        size = size_in_range(rows, cols)
        with self._lock:
            if self._is_reporting:
                super().set_size(*size)
                return
            self._call(library.vt100_set_size, *size)
            self._report()

    def reset(self) -> None:
        """Makes the parser as new: its screen is blank and has the default modes, there is no
        scrollback, title or unfinished sequence. The size is kept. Invokes no callbacks."""
        fresh = Handle()
        with self._lock:
            arguments = *self.size, self._capacity, self._listeners.wanted
            check(library.vt100_parser_new(*arguments, ctypes.byref(fresh)))
            self._handle.at, fresh.at = fresh.at, self._handle.at
            library.vt100_free(ctypes.byref(fresh))
            self._titles.title = self._titles.icon_name = ""

    def _report(self) -> None:
        """Invokes the callbacks for the events in the log, and clears it."""
        length, is_whole = ctypes.c_size_t(), ctypes.c_uint8()
        self._call(library.vt100_events, ctypes.byref(length), ctypes.byref(is_whole))
        if is_whole.value and not length.value:
            return
        log = ctypes.create_string_buffer(length.value)
        library.vt100_copy_events(self._at, log, length)
        self._is_reporting = True
        try:
            self._listeners.report(log.raw, self)
            if not is_whole.value:
                self._listeners.report_lost(self)
        finally:
            self._is_reporting = False
            library.vt100_clear_events(self._at)  # does nothing if a callback closed the parser

    def __copy__(self) -> NoReturn:
        raise TypeError("a Parser cannot be copied; save() returns a copy of its screen")


def _as_sequence(
    callbacks: Union[None, Callbacks, Sequence[Callbacks]]
) -> Tuple[Callbacks, ...]:
    """Returns the objects with callbacks. Raises `TypeError` if one is not a `Callbacks`."""
    if callbacks is None:
        return ()
    if isinstance(callbacks, Callbacks):
        return (callbacks,)
    found = tuple(callbacks) if isinstance(callbacks, Sequence) else (callbacks,)
    for one in found:
        if not isinstance(one, Callbacks):
            raise TypeError(f"callbacks must be a Callbacks, not {one!r}")
    return found
