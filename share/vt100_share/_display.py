"""A terminal that shows a screen, and in which one types."""

from __future__ import annotations

import asyncio
import contextlib
import os
import signal
import sys
import termios
import tty
from typing import Callable, Mapping, Optional, Tuple

from vt100 import TERMINAL_RESTORE, TERMINAL_SETUP, Screen

from . import _input
from ._fitting import Fitted, fitted
from ._input import Token, Tokenizer, moved_report
from ._keys import OWN_KEYS, KeyMap
from ._menu import Menu
from ._messages import MAX_COLS, MAX_ROWS

_ENTER = "\x1b[?1049h"
_LEAVE = "\x1b[?1049l"

#: How long the rest of a key may take to arrive after its first bytes, in seconds.
_KEY_DELAY = 0.05

#: How long to read nothing if the program does not read what was typed, in seconds.
_PAUSE = 0.05


def is_available() -> bool:
    """Returns whether standard input and output are a terminal."""
    return os.isatty(0) and os.isatty(1)


def terminal_size(file: int) -> Optional[Tuple[int, int]]:
    """Returns the rows and columns of a terminal, as far as a screen may have them, or None if its
    size is unknown."""
    try:
        found = os.get_terminal_size(file)
    except OSError:
        return None
    if found.lines < 1 or found.columns < 1:
        return None
    return min(found.lines, MAX_ROWS), min(found.columns, MAX_COLS)


class Typing:
    """What a display does with input. Derived classes send it somewhere."""

    @property
    def has_input_modes(self) -> bool:
        """Whether the program's input modes are set in the terminal."""
        return True

    def type(self, data: bytes) -> None:
        """Sends input to the program. Keys are those of this library's terminals."""

    @property
    def has_room(self) -> bool:
        """Whether more input can be sent."""
        return True

    def resize(self, rows: int, cols: int) -> bool:
        """Takes the new size of the terminal. Returns whether the screen will have it, too."""
        return False


class Display:
    """Shows a screen on the terminal of standard input and output, at the terminal's size, and
    reads what is typed there. `source` returns the screen, which must not change: `show` is called
    when there is another one. While the terminal is busy, screens are left out.

    `keys` are the keys of the terminal, by its terminfo entry.
    """

    def __init__(
        self,
        source: Callable[[], Optional[Screen]],
        typing: Typing,
        menu: Menu,
        keys: Mapping[str, bytes],
        has_frame: bool = True,
    ) -> None:
        self._loop = asyncio.get_running_loop()
        self._source, self._typing, self._menu = source, typing, menu
        self._keys = KeyMap(keys, OWN_KEYS)
        single = [menu.key] if menu.key is not None else []
        self._tokens = Tokenizer([*self._keys.sequences, *single])
        self._has_frame = has_frame
        self._shown: Optional[Fitted] = None
        self._must_redraw = self._is_behind = self._is_gone = False
        self._unsent = bytearray()
        self._key_timer: Optional[asyncio.TimerHandle] = None
        self._settings = termios.tcgetattr(0)
        # Another description of the terminal, since O_NONBLOCK would also hold for other processes.
        self._file = os.open(os.ttyname(1), os.O_RDWR | os.O_NOCTTY | os.O_NONBLOCK)
        tty.setraw(0)
        self._unsent += (_ENTER + TERMINAL_SETUP).encode()
        self._loop.add_reader(self._file, self._read)
        self._loop.add_signal_handler(signal.SIGWINCH, self._resized)
        self._write()
        self.show()

    # ---- output

    def show(self) -> None:
        """Displays the present screen, unless the terminal is still busy with an older one."""
        if self._is_gone:
            return
        self._is_behind = True
        if not self._unsent:
            self._unsent += self._update()
        self._write()

    def _update(self) -> bytes:
        """Returns what makes the terminal display the present screen."""
        self._is_behind = False
        screen = self._source()
        if screen is None:
            return b""
        size = terminal_size(self._file) or screen.size
        modes = self._typing.has_input_modes
        shown = fitted(screen, size, self._menu.lines, self._has_frame, modes)
        before, self._shown = self._shown, shown
        if before is None:
            return shown.screen.state_formatted_bytes(portable=True)
        is_same_size = before.screen.size == shown.screen.size
        if self._must_redraw or not is_same_size or not before.screen.is_steady():
            self._must_redraw = False
            redraw = shown.screen.contents_formatted_bytes(portable=True)
            modes_diff = shown.screen.input_mode_diff_bytes(before.screen)
            return TERMINAL_SETUP.encode() + redraw + modes_diff
        return shown.screen.state_diff_bytes(before.screen, portable=True)

    def _write(self) -> None:
        try:
            while self._unsent:
                del self._unsent[: os.write(self._file, self._unsent[:4096])]
        except BlockingIOError:
            pass
        except OSError:
            self._vanish()
        if self._unsent:
            self._loop.add_writer(self._file, self._written)
        else:
            self._loop.remove_writer(self._file)

    def _written(self) -> None:
        self._write()
        if not self._unsent and self._is_behind:
            self.show()

    def _vanish(self) -> None:
        """Shows nothing more: the terminal has been closed."""
        self._is_gone = True
        self._unsent.clear()
        self._loop.remove_reader(self._file)

    def _resized(self) -> None:
        """Redraws the screen, unless it will be resized as well."""
        self._must_redraw = True
        size = terminal_size(self._file)
        if size is None or not self._typing.resize(*size):
            self.show()

    # ---- input

    def _read(self) -> None:
        try:
            data = os.read(self._file, 4096)
        except BlockingIOError:
            return
        except OSError:
            data = b""
        if not data:
            self._vanish()
            return
        if self._key_timer is not None:
            self._key_timer.cancel()
            self._key_timer = None
        self._take(*self._tokens.feed(data))
        if self._tokens.has_kept:
            self._key_timer = self._loop.call_later(_KEY_DELAY, self._end_key)
        if not self._typing.has_room:
            self._loop.remove_reader(self._file)
            self._loop.call_later(_PAUSE, self._resume)

    def _resume(self) -> None:
        """Reads again what is typed, once the program reads it."""
        if self._is_gone:
            return
        if self._typing.has_room:
            self._loop.add_reader(self._file, self._read)
        else:
            self._loop.call_later(_PAUSE, self._resume)

    def _end_key(self) -> None:
        self._key_timer = None
        self._take(*self._tokens.flush())

    def _take(self, *tokens: Token) -> None:
        typed = b"".join(map(self._typed, tokens))
        if typed:
            self._typing.type(typed)

    def _typed(self, token: Token) -> bytes:
        """Returns what goes to the program for a token."""
        if token.kind == _input.MOUSE:
            return self._report(token.data)
        if token.kind == _input.PASTE:
            return token.data
        if self._menu.is_open:
            return self._pressed(token)
        if token.data == self._menu.key:
            self._menu.open()
            self.show()
            return b""
        if token.kind == _input.KEY:
            screen = self._source()
            return self._keys.text(token.data, screen is not None and screen.application_cursor)
        return token.data

    def _pressed(self, token: Token) -> bytes:
        """Returns what goes to the program for a token while the menu is open: only the first
        character of a text is a command."""
        found = _input.CHARACTER.match(token.data) if token.kind == _input.TEXT else None
        end = found.end() if found else len(token.data)
        typed = self._menu.press(token.data[:end])
        self.show()
        rest = token.data[end:]
        return typed + (self._typed(Token(_input.TEXT, rest)) if rest else b"")

    def _report(self, report: bytes) -> bytes:
        """Returns what the program reads for a report of the mouse: nothing if the place is none of
        its screen."""
        screen = self._source()
        if screen is None or self._shown is None:
            return b""
        return moved_report(report, self._shown.top, *screen.size) or b""

    def close(self) -> None:
        """Restores the terminal."""
        self._loop.remove_reader(self._file)
        self._loop.remove_writer(self._file)
        self._loop.remove_signal_handler(signal.SIGWINCH)
        if self._key_timer is not None:
            self._key_timer.cancel()
        os.close(self._file)
        self._is_gone = True
        with contextlib.suppress(OSError, termios.error):  # if the terminal has been closed
            termios.tcsetattr(0, termios.TCSAFLUSH, self._settings)
            sys.stdout.write(TERMINAL_RESTORE + _LEAVE)
            sys.stdout.flush()
