"""The HTTP and WebSocket server: its connections, and how many there may be."""

from __future__ import annotations

import asyncio
import resource
import socket
import time
from typing import Callable, Dict, Optional, Set

from ._connection import NORMAL, Connection
from ._listening import Listener
from ._output import Backlog
from ._share import Audience
from ._site import Site
from ._sockets import WebSockets
from ._viewers import Tokens

#: How many connections there may be whose request or token is incomplete, and how many that read a
#: response. If another one comes, the oldest one goes.
_MAX_STRANGERS = _MAX_READERS = 256

#: How long each of them may stay at least, in seconds. Until then, others are not accepted.
_STAY = 0.5

#: How many open files are not those of viewers.
_OTHER_FILES = _MAX_STRANGERS + _MAX_READERS + 64

#: The number of bytes of frames that may wait for viewers that read slowly.
_MAX_BACKLOG = 1 << 26

#: How long to wait for viewers that do not reply to the end, and for all, in seconds.
_PATIENCE, _MAX_PATIENCE = 2.0, 5.0


def room_for(viewers: int) -> int:
    """Returns for how many of the viewers this process may open files, of which it may then open as
    many as they need."""
    soft, hard = resource.getrlimit(resource.RLIMIT_NOFILE)
    needed = viewers + _OTHER_FILES
    if soft != resource.RLIM_INFINITY and soft < needed:
        soft = needed if hard == resource.RLIM_INFINITY else min(needed, hard)
        resource.setrlimit(resource.RLIMIT_NOFILE, (soft, hard))
    if soft == resource.RLIM_INFINITY:
        return viewers
    return min(viewers, max(soft - _OTHER_FILES, soft // 4))


def _admit(connection: Connection, others: Dict[Connection, float], limit: int) -> None:
    """Adds a connection to others, of which the oldest one goes if there are too many."""
    others.pop(connection, None)
    if len(others) >= limit:
        oldest = next(iter(others))
        del others[oldest]
        oldest.turn_away()
    others[connection] = time.monotonic()


class Server:
    """The connections. `start` begins to listen. `share` is what viewers see: without it, they are
    told to come back."""

    share: Optional[Audience] = None

    #: How many connections were ended because of what they sent or did not send.
    turned_away = 0

    def __init__(self, site: Site, tokens: Tokens, max_viewers: int) -> None:
        self.site, self.tokens = site, tokens
        self.max_viewers = max_viewers
        self.connections: Set[Connection] = set()
        self.sockets = WebSockets()
        self.backlog = Backlog(_MAX_BACKLOG)
        self._strangers: Dict[Connection, float] = {}  # and since when
        self._readers: Dict[Connection, float] = {}
        self._listener: Optional[Listener] = None
        self._sweeper: Optional[asyncio.Task[None]] = None
        self._arriving: Set[asyncio.Task[None]] = set()

    async def start(self, host: str, port: int, report: Callable[[str], None]) -> int:
        """Begins to listen. Returns the port, which the system chooses if `port` is 0. Says by
        `report` if the system permits fewer viewers than wanted."""
        possible = room_for(self.max_viewers)
        if possible < self.max_viewers:
            self.max_viewers = possible
            report(f"at most {possible} viewers: this process may not open more files (ulimit -n)")
        self._listener = Listener(self._accept, self._delay, report)
        number = await self._listener.start(host, port)
        self._sweeper = asyncio.get_running_loop().create_task(self._sweep())
        return number

    def _delay(self) -> float:
        """Returns how long to accept no connection, in seconds."""
        if len(self._strangers) + len(self._arriving) < _MAX_STRANGERS:
            return 0.0
        since = next(iter(self._strangers.values()), time.monotonic())
        return since + _STAY - time.monotonic()

    def _accept(self, connected: socket.socket) -> None:
        task = asyncio.get_running_loop().create_task(self._connect(connected))
        self._arriving.add(task)
        task.add_done_callback(self._arriving.discard)

    async def _connect(self, connected: socket.socket) -> None:
        loop = asyncio.get_running_loop()
        try:
            await loop.connect_accepted_socket(lambda: Connection(self, connected), connected)
        except OSError:  # it is lost already
            connected.close()

    # ---- what connections are

    def add(self, connection: Connection) -> None:
        """Adds a connection, whose other end is a stranger."""
        self.connections.add(connection)
        self.distrust(connection)

    def distrust(self, connection: Connection) -> None:
        """Takes note that the other end of a connection is a stranger."""
        _admit(connection, self._strangers, _MAX_STRANGERS)

    def reads(self, connection: Connection) -> None:
        """Takes note that the other end of a connection reads a response."""
        self._strangers.pop(connection, None)
        _admit(connection, self._readers, _MAX_READERS)

    def welcome(self, connection: Connection) -> None:
        """Takes note that the other end of a connection is a viewer."""
        self._strangers.pop(connection, None)

    def remove(self, connection: Connection) -> None:
        """Removes a connection that is lost."""
        self.connections.discard(connection)
        self._strangers.pop(connection, None)
        self._readers.pop(connection, None)
        self.backlog.release(connection.abort)

    async def _sweep(self) -> None:
        """Ends connections that are silent for too long."""
        while True:
            await asyncio.sleep(1)
            now = time.monotonic()
            # First reads what has arrived: if the event loop was slow, its viewers were not silent.
            await asyncio.sleep(0)
            await asyncio.sleep(0)
            for connection in list(self.connections):
                connection.check_time(now)

    async def close(self) -> None:
        """Ends all connections. Waits for the viewers' replies as long as there is one in two
        seconds, but no longer than five seconds."""
        if self._listener is not None:
            self._listener.close()
            self._listener = None
        if self._sweeper is not None:
            self._sweeper.cancel()
        await asyncio.gather(*self._arriving)
        for connection in list(self.connections):
            connection.end(NORMAL, "the program has ended")
        now = time.monotonic()
        last, end, count = now + _MAX_PATIENCE, now + _PATIENCE, len(self.connections)
        while self.connections and now < min(end, last):
            await asyncio.sleep(0.02)
            now = time.monotonic()
            if len(self.connections) < count:
                end, count = now + _PATIENCE, len(self.connections)
        for connection in list(self.connections):
            connection.abort()
        await asyncio.sleep(0)
