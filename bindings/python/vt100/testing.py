"""Runs programs in a terminal to test what they display.

    from vt100.testing import Terminal

    def test_less_shows_the_end():
        with Terminal("less README.md", rows=24, cols=80) as terminal:
            terminal.wait_for("README.md")
            terminal.press("G")
            terminal.wait_for("(END)")
            terminal.press("q")
            assert terminal.wait_end() == 0

Requires pseudoterminals, which only POSIX systems have.
"""

from __future__ import annotations

import contextlib
import errno
import math
import os
import select
import shlex
import subprocess
import time
import warnings
import weakref
from types import TracebackType
from typing import (
    Callable,
    Dict,
    List,
    Mapping,
    NamedTuple,
    NoReturn,
    Optional,
    Sequence,
    Type,
    TypeVar,
    Union,
)

from . import terminfo
from ._compare import diff
from ._keys import KEYS, key_bytes, mouse_bytes, paste_text
from ._recent import Recent
from ._waiting import Predicate, condition, name_of
from .callbacks import Callbacks
from .charsets import Charsets
from .parser import Parser, _as_sequence
from .program import Program
from .replies import Replies
from .screen import Screen

__all__ = ["KEYS", "Predicate", "Terminal", "WaitFailed", "diff", "framed"]

_Self = TypeVar("_Self", bound="Terminal")

_READABLE = select.POLLIN | select.POLLHUP | select.POLLERR


class WaitFailed(AssertionError):
    """Raised if an awaited condition is not met in time, or if the program ends first.

    The message contains the screen. `text` is that part of it, and `screen` is a copy of the
    screen, or None if the exception has been pickled, as for another process.
    """

    def __init__(self, message: str, screen: Union[Screen, str]) -> None:
        self.screen = None if isinstance(screen, str) else screen
        self.text = screen if isinstance(screen, str) else framed(screen)
        self._message = message
        super().__init__(f"{message}\n{self.text}")

    def __reduce__(self) -> object:  # type: ignore[override]
        return WaitFailed, (self._message, self.text)


def framed(screen: Screen) -> str:
    """Returns the text of a screen in a frame, with its size and cursor."""
    rows, cols = screen.size
    row, col = screen.cursor
    edge = "+" + "-" * cols + "+"
    lines = [f"|{line}|" for line in screen.display]
    hidden = ", hidden" if screen.hide_cursor else ""
    head = f"screen of {rows}x{cols}, cursor in row {row}, column {col}{hidden}:"
    return "\n".join([head, edge, *lines, edge])


class _Limit(NamedTuple):
    """A number of seconds, and the time at which they are over."""

    seconds: float
    end: float

    @property
    def left(self) -> float:
        return max(0.0, self.end - time.monotonic())


class Terminal:
    """A program that runs in a terminal.

    `command` is the program and its arguments, or a string that is split as a shell splits words
    (no shell is run). `timeout` is the default time limit of each wait in seconds. `screen` is the
    terminal's parser, created with `scrollback` and `callbacks`; line drawing is translated to
    Unicode before it is parsed (see `Charsets`). With `replies`, the terminal replies to the
    queries of the program (see `Replies`).

    The program gets the environment of the caller without LINES and COLUMNS, changed by `env`: each
    name gets its value, or is removed if that is None. If neither LC_ALL, LC_CTYPE nor LANG is set,
    LC_CTYPE is C.UTF-8. TERM and TERMINFO are those of the entry of this terminal,
    caldrosk-256color. For another value of TERM, pass it as `term` or in `env`; TERMINFO is then
    the one in the environment, if any.

    Close a terminal after use, by a `with` statement or `close`.
    """

    _is_open = _is_processing = False

    def __init__(
        self,
        command: Union[str, Sequence[str]],
        rows: int = 24,
        cols: int = 80,
        *,
        scrollback: int = 0,
        callbacks: Union[None, Callbacks, Sequence[Callbacks]] = None,
        replies: bool = False,
        env: Optional[Mapping[str, Optional[str]]] = None,
        cwd: Optional[str] = None,
        term: Optional[str] = None,
        timeout: float = 10.0,
    ) -> None:
        words = shlex.split(command) if isinstance(command, str) else list(command)
        if not words:
            raise ValueError("the command is empty")
        self.timeout = timeout
        own: List[Callbacks] = [Replies(_weak_send(self))] if replies else []
        self.screen = Parser(rows, cols, scrollback, [*_as_sequence(callbacks), *own])
        self._charsets = Charsets()
        self._recent = Recent(rows, cols)
        self._has_output, self._has_written = True, False
        self._program = _start(words, rows, cols, _environment(env, term), cwd)
        self._is_open = True

    def __enter__(self: _Self) -> _Self:
        return self

    def __exit__(
        self,
        kind: Optional[Type[BaseException]],
        error: Optional[BaseException],
        trace: Optional[TracebackType],
    ) -> None:
        self.close()

    def __del__(self) -> None:
        if self._is_open:
            warnings.warn(f"{self!r} was not closed", ResourceWarning, source=self)
            self.close()

    def __repr__(self) -> str:
        return f"<vt100.testing.Terminal {self._program.command!r}, {self.screen!r}>"

    @property
    def status(self) -> Optional[int]:
        """The exit status of the program, or the negated number of the signal that ended it. None
        while the program runs."""
        return self._program.status

    # Input

    def send(self, data: Union[str, bytes]) -> None:
        """Sends text to the program as if it were typed. Raises `WaitFailed` if the program has
        ended or does not read the text within `self.timeout` seconds.

        A callback of the terminal's parser may also call this method: the text is then sent after
        the callback has returned."""
        self._check_open()
        if self._is_processing:
            self._type(data)
            return
        limit = self._limit(None)
        if not self._has_output:
            self._fail("sending text", limit)
        self._recent.forget()
        self._type(data)
        self._flush()
        while self._program.unsent_len:
            # A program may read no more input before its own output is read.
            self._wait_for_file(limit.left)
            if self._program.unsent_len and (not self._has_output or not limit.left):
                self._program.drop_input()
                self._fail("sending text", limit)

    def _type(self, data: Union[str, bytes]) -> None:
        self._program.type(data.encode() if isinstance(data, str) else data)

    def press(self, *keys: str) -> None:
        """Sends keys, which are characters or names in `KEYS`, after any of "ctrl-", "alt-" and
        "shift-", or "C-", "M-" and "S-", as in "ctrl-c", "C-c", "f12" or "ctrl-shift-up". Cursor
        keys and the keypad are sent according to the modes that the program has set. Raises
        `ValueError` if there is no such key; nothing is sent then."""
        for key in keys:
            key_bytes(key, False)
        for key in keys:
            state = self.screen
            self.send(key_bytes(key, state.application_cursor, state.application_keypad))

    def mouse(self, action: str, row: int, col: int, button: str = "left") -> None:
        """Sends a mouse event to the program, in the encoding that it has requested.

        `action` is "press", "release" or "move". `button` is "left", "middle", "right", "wheel_up"
        or "wheel_down", or "none" for a move without a button, after any of "ctrl-", "alt-" and
        "shift-". Raises `ValueError` if the program has not requested the event."""
        screen = self.screen
        mode, encoding = screen.mouse_protocol_mode, screen.mouse_protocol_encoding
        rows, cols = screen.size
        if not (0 <= row < rows and 0 <= col < cols):
            raise ValueError(f"row {row}, column {col} is not on a screen of {rows}x{cols}")
        self.send(mouse_bytes(action, row, col, button, mode, encoding))

    def click(self, row: int, col: int, button: str = "left") -> None:
        """Sends a press of a mouse button and, if the program has requested them, its release."""
        self.mouse("press", row, col, button)
        if self.screen.mouse_protocol_mode > 1 and "wheel" not in button:
            self.mouse("release", row, col, button)

    def paste(self, text: str) -> None:
        """Sends text as a terminal does when the user pastes it: with CR for each newline, without
        other controls than TAB and, if the program has set bracketed paste mode, between
        brackets."""
        self.send(paste_text(text, self.screen.bracketed_paste))

    def resize(self, rows: int, cols: int) -> None:
        """Resizes the terminal, which notifies the program with SIGWINCH."""
        self._check_open()
        self.screen.set_size(rows, cols)
        self._recent.set_size(rows, cols)
        self._program.resize(rows, cols)

    # Waiting

    def wait_for(
        self, wanted: Predicate, timeout: Optional[float] = None, *, accept_old: bool = False
    ) -> Screen:
        """Processes output until the screen contains a string or a match of a compiled pattern, or
        a predicate returns true. Returns a copy of that screen.

        After input was sent, the program must have written the text, or a part of it, since then:
        after `send("ls\\n")`, `wait_for("$ ")` waits for the next prompt. With `accept_old`, text
        that was displayed before counts, too. A predicate always gets the whole screen.

        Raises `WaitFailed` after `timeout` seconds, or if the program has ended and the condition
        is not satisfied after all of its output.
        """
        self._check_open()
        holds = condition(wanted, None if accept_old else self._recent)
        limit = self._limit(timeout)
        while not holds(self.screen):
            is_read = self.read(limit.left)
            if not is_read or (not limit.left and not holds(self.screen)):
                is_old = not callable(wanted) and condition(wanted)(self.screen)
                hint = ", other than what was displayed before the last input" if is_old else ""
                self._fail(f"waiting for {name_of(wanted)}{hint}", limit)
        return self.screen.save()

    def wait_quiet(self, seconds: float = 0.2, timeout: Optional[float] = None) -> Screen:
        """Processes output until there is none for the given number of seconds, or the program
        ends. Waits first until the program has written something, if it has not yet. Returns a copy
        of the screen. Raises `WaitFailed` after `timeout` seconds."""
        self._check_open()
        limit = self._limit(timeout)
        while self.read(seconds) or (self._has_output and not self._has_written):
            if not limit.left:
                self._fail(f"waiting for {seconds:g} seconds without output", limit)
        return self.screen.save()

    def wait_end(self, timeout: Optional[float] = None) -> int:
        """Processes output until the program ends. Returns its exit status, or the negated number
        of the signal that ended it. Raises `WaitFailed` after `timeout` seconds."""
        self._check_open()
        limit = self._limit(timeout)
        while self._has_output:
            is_read = self.read(limit.left)
            if self._has_output and (not is_read or not limit.left):
                self._fail("waiting for the end of the program", limit)
        try:
            return self._program.wait(limit.left)
        except subprocess.TimeoutExpired:
            self._fail("waiting for the end of the program", limit)

    def _check_open(self) -> None:
        if not self._is_open:
            raise ValueError("the terminal is closed")

    def _limit(self, timeout: Optional[float]) -> _Limit:
        seconds = self.timeout if timeout is None else timeout
        return _Limit(seconds, time.monotonic() + seconds)

    def _fail(self, doing: str, limit: _Limit) -> NoReturn:
        """Raises `WaitFailed` with the reason why there was no more output."""
        if self._has_output:
            reason = f"not done within {limit.seconds:g} seconds"
        else:
            with contextlib.suppress(subprocess.TimeoutExpired):
                self._program.wait(min(1.0, limit.left))
            status = self._program.status
            ended = "closed the terminal" if status is None else f"ended with status {status}"
            reason = f"the program has {ended}"
        raise WaitFailed(f"{doing}: {reason}", self.screen.save())

    # Output

    def fileno(self) -> int:
        """Returns the descriptor of the terminal, for `select` and the like: it is readable when
        `read` has something to do."""
        self._check_open()
        return self._program.file

    def read(self, seconds: float = 0.0) -> bool:
        """Processes the output that arrives within the given number of seconds. Returns whether
        there was any: False without delay means that the program has ended its output."""
        self._check_open()
        limit = self._limit(seconds)
        while self._has_output:
            ready = self._wait_for_file(limit.left)
            if ready & _READABLE:
                return self._has_output
            if not ready:
                return False
        return False

    def _wait_for_file(self, seconds: float) -> int:
        """Waits until the terminal can be read or, if there is unsent text, written, and does that.
        Returns what was possible."""
        poll = select.poll()
        writable = select.POLLOUT if self._program.unsent_len else 0
        poll.register(self._program.file, select.POLLIN | writable)
        ready = poll.poll(min(1 << 30, math.ceil(seconds * 1000)))
        events = ready[0][1] if ready else 0
        if events & _READABLE:
            self._process_output()
        if events & select.POLLOUT and self._has_output:
            self._flush()
        return events

    def _process_output(self) -> None:
        data = self._program.read()
        if data is None:
            return
        self._has_output = data != b""
        self._has_written |= self._has_output
        text = self._charsets.translate(data)
        self._recent.process(text)
        self._is_processing = True
        try:
            self.screen.process(text)
        finally:
            self._is_processing = False
        self._flush()  # what callbacks have sent

    def _flush(self) -> None:
        """Writes as much of the unsent text as the terminal accepts."""
        if self._has_output:
            self._program.flush()

    def close(self) -> None:
        """Hangs up the terminal. Kills the program, and the processes that it has left in its
        session, if that does not end them within one second. May be called more than once."""
        if self._is_open:
            self._is_open = self._has_output = False
            self._program.kill()


def _weak_send(terminal: Terminal) -> Callable[[bytes], object]:
    """Returns a function that calls `send` without keeping the terminal from being freed."""
    known = weakref.ref(terminal)

    def send(data: bytes) -> None:
        found = known()
        if found is not None:
            found.send(data)

    return send


def _environment(env: Optional[Mapping[str, Optional[str]]], term: Optional[str]) -> Dict[str, str]:
    """Returns the environment of the program."""
    changed: Dict[str, Optional[str]] = {**os.environ, "LINES": None, "COLUMNS": None}
    changed.update(env or {})
    environment = {name: value for name, value in changed.items() if value is not None}
    if not any(environment.get(name) for name in ("LC_ALL", "LC_CTYPE", "LANG")):
        environment["LC_CTYPE"] = "C.UTF-8"
    term = term or (env or {}).get("TERM")
    if term is not None:
        environment["TERM"] = term
        return environment
    environment["TERM"], folder = terminfo.entry()
    if folder is not None:
        environment["TERMINFO"] = folder
    return environment


def _start(
    words: List[str], rows: int, cols: int, env: Dict[str, str], cwd: Optional[str]
) -> Program:
    """Starts the program. Raises `FileNotFoundError` that names the program if there is none."""
    try:
        return Program(words, rows, cols, env, cwd)
    except FileNotFoundError as error:
        if error.filename != words[0]:
            raise
        raise FileNotFoundError(errno.ENOENT, "there is no such program", words[0]) from None
