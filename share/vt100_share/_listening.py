"""Listening sockets whose connections are accepted a few at a time."""

from __future__ import annotations

import asyncio
import contextlib
import socket
from typing import Callable, List, Optional

#: How many connections the system keeps until they are accepted, if it allows as many.
_BACKLOG = 4096

#: How many connections are accepted before the event loop has its turn, so that many which come at
#: once do not delay updates: at first, per second while others wait, and at most.
_AT_ONCE, _RATE, _MOST = 16, 500, 256

#: How long to accept nothing after the system has refused to, in seconds: if a process may open no
#: more files, say.
_PAUSE = 1.0

#: The hosts that stand for all addresses of this machine, and an address that is far from it.
_ALL = {
    "0.0.0.0": (socket.AF_INET, "192.0.2.1"),
    "::": (socket.AF_INET6, "2001:db8::1"),
}


def address_of(host: str) -> str:
    """Returns an address by which a server can be reached that listens on `host`: one of this
    machine if `host` stands for all."""
    family, far = _ALL.get(host, (None, ""))
    if family is None:
        return host
    with contextlib.suppress(OSError), socket.socket(family, socket.SOCK_DGRAM) as one:
        one.connect((far, 9))  # which sends nothing, and chooses the address of this end
        return str(one.getsockname()[0])
    return "127.0.0.1" if family == socket.AF_INET else "::1"


class Listener:
    """Listens on an address, and calls `accept` with each connection. `delay()` returns how long to
    accept nothing, in seconds. While the system refuses to accept more, the others wait, and
    `report` is called once with a message."""

    def __init__(
        self,
        accept: Callable[[socket.socket], object],
        delay: Callable[[], float],
        report: Callable[[str], None],
    ) -> None:
        self._accept, self._delay, self._report = accept, delay, report
        self._loop = asyncio.get_running_loop()
        self._sockets: List[socket.socket] = []
        self._has_reported = False
        self._limited_at: Optional[float] = None  # when the last turn has left connections waiting

    async def start(self, host: str, port: int) -> int:
        """Begins to listen on all addresses of `host`. Returns the port, which the system chooses
        if `port` is 0. Raises `OSError`."""
        found = await self._loop.getaddrinfo(host, port, type=socket.SOCK_STREAM)
        try:
            for family, kind, protocol, _, address in dict.fromkeys(found):
                one = socket.socket(family, kind, protocol)
                self._sockets.append(one)
                one.setblocking(False)
                one.setsockopt(socket.SOL_SOCKET, socket.SO_REUSEADDR, 1)
                if family == socket.AF_INET6:
                    one.setsockopt(socket.IPPROTO_IPV6, socket.IPV6_V6ONLY, 1)
                one.bind((address[0], port, *address[2:]))
                one.listen(_BACKLOG)
                port = one.getsockname()[1]
        except BaseException:
            self.close()
            raise
        self._resume()
        return port

    def _take(self, listening: socket.socket) -> None:
        count, self._limited_at = self._count(), None
        for _ in range(count):
            delay = self._delay()
            if delay > 0.0:
                self._wait(delay)
                return
            try:
                connected, _address = listening.accept()
            except (BlockingIOError, InterruptedError, ConnectionError):
                return
            except OSError as error:
                if not self._has_reported:
                    self._has_reported = True
                    self._report(f"connections have to wait: {error.strerror}")
                self._wait(_PAUSE)
                return
            connected.setblocking(False)
            self._accept(connected)
        self._limited_at = self._loop.time()

    def _count(self) -> int:
        """Returns how many connections to accept: more after a long turn of the event loop."""
        if self._limited_at is None:
            return _AT_ONCE
        passed = self._loop.time() - self._limited_at
        return min(_MOST, max(_AT_ONCE, int(_RATE * passed)))

    def _wait(self, seconds: float) -> None:
        """Accepts nothing for a while."""
        for one in self._sockets:
            self._loop.remove_reader(one.fileno())
        self._loop.call_later(seconds, self._resume)

    def _resume(self) -> None:
        for one in self._sockets:
            self._loop.add_reader(one.fileno(), self._take, one)

    def close(self) -> None:
        """Ends listening. The system refuses connections that have not been accepted."""
        for one in self._sockets:
            self._loop.remove_reader(one.fileno())
            one.close()
        self._sockets.clear()
