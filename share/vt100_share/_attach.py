"""A viewer in a terminal: vt100-share attach."""

from __future__ import annotations

import asyncio
import os
import signal
from typing import Any, List, Mapping, NamedTuple, Optional
from urllib.parse import urljoin, urlsplit

from vt100 import Screen

from . import _messages as messages
from ._attached import CHUNK, SharedScreen
from ._display import Display, Typing
from ._keys import keys_of
from ._loop import Delays
from ._menu import Command, Menu, name_of
from ._sockets import library

#: The longest message that is read, in bytes: a screen whose cells all have colors of their own.
_MAX_MESSAGE = 1 << 25

#: After how many bytes of screens what was read is acknowledged.
_ACKNOWLEDGE_AFTER = 4096

#: How long after a loss the next attempt is made, in seconds: at most this first time, and later.
_DELAYS = 0.375, 15.0

#: How many bytes of input may wait, how many are sent at a time, and how many per second.
_MAX_UNSENT, _PART, _RATE = 1 << 16, 2048, 40000

#: The shortest time between two messages with input, in seconds.
_GAP = 0.015

#: The code of a close frame for a viewer that broke a rule.
_VIOLATION = 1008

_CTRL_C = b"\x03"

_STALE = "The program is out of reach: this screen may be old."
_LOST = "Not connected: this screen may be old. Connecting again..."


class Refused(Exception):
    """Raised if a server cannot be reached, or ends the connection for good."""


class Place(NamedTuple):
    """Where a server is, and the token."""

    url: str
    token: str


def place_of(address: str) -> Place:
    """Returns the place that an address of a page names. Raises `Refused`."""
    try:
        parts = urlsplit(address)
        schemes = {"http": "ws", "https": "wss"}
        if (
            parts.scheme not in schemes
            or not parts.hostname
            or not parts.fragment
            or parts.port == 0
        ):
            raise ValueError
    except ValueError:
        raise Refused("an address is http://HOST/#TOKEN or https://HOST/#TOKEN") from None
    base = parts._replace(scheme=schemes[parts.scheme], query="", fragment="").geturl()
    return Place(urljoin(base, "viewer" if parts.path else "/viewer"), parts.fragment)


class Attachment(Typing):
    """A viewer that displays the screen of a server on the terminal of standard input and output.

    With `can_type`, what is typed is sent to the program, if the address allows it. `key` opens a
    line with a command that leaves.
    """

    def __init__(self, place: Place, can_type: bool, key: bytes, keys: Mapping[str, bytes]) -> None:
        self._place, self._can_type, self._key = place, can_type, key
        self._connect, self._errors = library().connect, library(".exceptions")
        # The package's own offer limits the window, which the server refuses.
        deflate = library(".extensions.permessage_deflate").ClientPerMessageDeflateFactory
        self._offer = deflate(server_no_context_takeover=True, client_no_context_takeover=True)
        self._screen = SharedScreen()
        self._shown: Optional[Screen] = None  # after the last message
        self._loop = asyncio.get_running_loop()
        self._over = asyncio.Event()
        self._signal: Optional[int] = None
        self._socket: Any = None
        self._is_lost = False
        self._acknowledged = 0
        self._unsent = bytearray()
        self._sent = 0
        self._wake = asyncio.Event()
        self._keys = keys
        commands = {"q": Command(lambda: "leave", self._leave)}
        self._menu = Menu(key, self._status, commands, self._notice)
        self._display: Optional[Display] = None

    # ---- what the terminal shows

    def _status(self) -> str:
        viewers, writers = self._screen.counts
        role = "you may type" if self.has_input_modes else "you only watch"
        return f"{viewers} viewer{'' if viewers == 1 else 's'}, {writers} may type; {role}"

    def _notice(self) -> Optional[str]:
        if self._is_lost:
            return f"{_LOST} {name_of(self._key)}, then q: leave"
        return _STALE if self._screen.is_stale else None

    def _leave(self) -> None:
        self._over.set()

    @property
    def has_input_modes(self) -> bool:
        return self._can_type and self._screen.may_write

    def _show(self) -> None:
        if self._display is not None:
            self._display.show()

    # ---- the connection

    async def run(self) -> int:
        """Shows the screen until the program has ended, or the user leaves. Returns the exit
        status. Raises `Refused`."""
        for number in (signal.SIGTERM, signal.SIGINT, signal.SIGHUP):
            self._loop.add_signal_handler(number, self._stopped_by, number)
        following = self._loop.create_task(self._follow())
        sending = self._loop.create_task(self._send_input())
        leaving = self._loop.create_task(self._over.wait())
        try:
            await asyncio.wait({following, leaving}, return_when=asyncio.FIRST_COMPLETED)
            if following.done():
                following.result()
        finally:
            for task in (following, sending, leaving):
                task.cancel()
            await asyncio.gather(following, sending, leaving, return_exceptions=True)
            if self._display is not None:
                self._display.close()
        if self._signal is not None:
            return 128 + self._signal
        return self._screen.status or 0

    def _stopped_by(self, number: int) -> None:
        self._signal = number
        self._over.set()

    @property
    def end(self) -> str:
        """How the screen ended, for the user."""
        status = self._screen.status
        return "left" if status is None else f"the program has ended with status {status}"

    async def _follow(self) -> None:
        """Reads the server's messages until the program has ended. Connects again when the
        connection is lost."""
        delays = Delays(*_DELAYS)
        while self._screen.status is None:
            try:
                await self._follow_once()
            except (OSError, self._errors.WebSocketException, asyncio.TimeoutError) as error:
                if self._display is None:
                    raise Refused(f"cannot connect: {_text_of(error)}") from None
            if self._screen.status is not None:
                return
            if self._screen.has_begun:
                delays.reset()
            self._lose()
            await asyncio.sleep(delays.next())

    def _lose(self) -> None:
        self._is_lost = True
        self._unsent.clear()
        self._show()

    async def _follow_once(self) -> None:
        """Reads messages until the connection ends. Raises `Refused` if it was ended for good."""
        self._screen.begin()
        self._acknowledged = self._sent = 0
        async with self._connect(
            self._place.url, max_size=_MAX_MESSAGE, compression=None, extensions=[self._offer]
        ) as socket:
            try:
                await socket.send(b"t" + self._place.token.encode())
                self._socket = socket
                async for message in socket:
                    await self._take(message if isinstance(message, bytes) else b"")
                    if self._screen.status is not None:
                        return
            except messages.Nonsense as fault:
                raise Refused(f"the server makes no sense: {fault}") from None
            except self._errors.ConnectionClosed:
                pass
            finally:
                self._socket = None
        if socket.close_code == _VIOLATION:
            raise Refused(f"the server has ended the connection: {socket.close_reason}")

    async def _take(self, message: bytes) -> None:
        text = self._screen.text_of(message)
        for at in range(0, len(text), CHUNK):
            self._screen.process(text[at : at + CHUNK])
            await asyncio.sleep(0)
        if text and self._screen.parser is not None:
            self._shown = self._screen.parser.shown_copy()
        self._wake.set()
        if not self._screen.has_begun:
            return
        self._is_lost = False
        if self._display is None:
            self._display = Display(lambda: self._shown, self, self._menu, self._keys)
        self._show()
        if self._screen.read_len - self._acknowledged >= _ACKNOWLEDGE_AFTER:
            self._acknowledged = self._screen.read_len
            await self._socket.send(messages.acknowledgement(self._acknowledged))

    # ---- what is typed

    def type(self, data: bytes) -> None:
        if not self._can_type:
            if _CTRL_C in data:
                self._leave()
        elif self._screen.may_write and not self._is_lost:
            self._unsent += data
            self._wake.set()

    @property
    def has_room(self) -> bool:
        return len(self._unsent) < _MAX_UNSENT

    async def _send_input(self) -> None:
        """Sends what was typed, within the limits of the server."""
        while True:
            await self._wake.wait()
            self._wake.clear()
            while self._unsent and self._socket is not None:
                room = messages.MAX_UNTAKEN - (self._sent - self._screen.taken_len) - 1
                part = bytes(self._unsent[: max(0, min(_PART, room))])
                if not part:
                    break
                del self._unsent[: len(part)]
                self._sent += 1 + len(part)
                try:
                    await self._socket.send(b"i" + part)
                except self._errors.ConnectionClosed:
                    break
                await asyncio.sleep(max(_GAP, len(part) / _RATE))


def _text_of(error: BaseException) -> str:
    """Returns one line about an error."""
    lines: List[str] = str(error).strip().splitlines()
    return lines[0] if lines else type(error).__name__


async def attach(address: str, can_type: bool, key: bytes) -> int:
    """Displays the screen at an address on the terminal of standard input and output. Returns the
    exit status. Raises `Refused`, and `NoLibrary`."""
    keys = keys_of(os.environ.get("TERM", ""))
    attachment = Attachment(place_of(address), can_type, key, keys)
    status = await attachment.run()
    print(f"vt100-share: {attachment.end}", flush=True)
    return status
