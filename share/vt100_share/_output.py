"""What a connection sends, and what the server keeps of it while the other end reads slowly."""

from __future__ import annotations

import asyncio
import fcntl
import socket
import struct
import termios
from typing import Callable, Dict, List

#: How many bytes the transport of a connection gets of what the socket has not accepted.
_TRANSPORTED = 4096


class Output:
    """Sends data to the socket of a connection, whose transport must not buffer anything.

    The data that the socket does not accept is not copied: connections that send the same frame
    share it. Only a few bytes go through the transport, which then says when there is room.
    """

    __slots__ = ("_socket", "_transport", "_parts", "_is_paused", "_must_close", "_is_idle")

    def __init__(self, connected: socket.socket, transport: asyncio.Transport) -> None:
        self._socket, self._transport = connected, transport
        self._parts: List[memoryview] = []
        self._is_paused = self._must_close = False
        # Whether a frame can be sent at once. With 10,000 connections, it takes longer to look at
        # the parts and at the transport for each frame, which are not in the processor's cache.
        self._is_idle = True
        transport.set_write_buffer_limits(high=0)

    @property
    def is_empty(self) -> bool:
        """Whether all data has left the process."""
        return not self._parts and not self._is_paused

    @property
    def unread_len(self) -> int:
        """The number of bytes that the other end has not acknowledged."""
        waiting = sum(map(len, self._parts)) + self._transport.get_write_buffer_size()
        try:
            queued = fcntl.ioctl(self._socket, termios.TIOCOUTQ, bytes(4))
        except (OSError, ValueError):  # the connection is lost
            return waiting
        return waiting + int(struct.unpack("i", queued)[0])

    def write(self, data: bytes) -> bool:
        """Sends data, unless the connection is closing. Returns whether all has left the
        process."""
        if self._is_idle:
            sent = self._send(data)
            if sent == len(data):
                return True
            data = memoryview(data)[sent:]
        elif self._must_close or self._transport.is_closing():
            return True
        self._parts.append(memoryview(data))
        self._push()
        return self.is_empty

    def pause(self) -> None:
        """Called when the transport has data to write."""
        self._is_paused, self._is_idle = True, False

    def resume(self) -> None:
        """Called when the transport has written all its data."""
        self._is_paused = False
        self._push()

    def close(self) -> None:
        """Closes the connection after all data has been sent."""
        self._must_close, self._is_idle = True, False
        if self.is_empty:
            self._transport.close()

    def _push(self) -> None:
        while self._parts and not self._is_paused:
            part = self._parts.pop(0)
            rest = part[self._send(part) :]
            if rest[_TRANSPORTED:]:
                self._parts.insert(0, rest[_TRANSPORTED:])
            if rest:
                self._transport.write(bytes(rest[:_TRANSPORTED]))
            if self._transport.is_closing():
                self._parts.clear()
        self._is_idle = self.is_empty and not self._must_close
        if self._must_close and self.is_empty:
            # Not at once: while asyncio says that there is room, it would end the connection twice.
            asyncio.get_running_loop().call_soon(self._transport.close)

    def _send(self, data: "bytes | memoryview") -> int:
        """Sends as much as the socket accepts, and returns its length. The method of the transport
        takes a third of the time of the system call more."""
        try:
            return self._socket.send(data)
        except (BlockingIOError, InterruptedError):
            return 0
        except OSError:  # the other end has gone
            self._must_close, self._is_idle = True, False
            self._transport.abort()
            return len(data)


class Backlog:
    """The frames of which a part waits for viewers that read slowly. Viewers that were sent the same
    frame share it. If the frames exceed `limit` bytes, those that have waited longest are given up,
    by the function with which they were added."""

    def __init__(self, limit: int) -> None:
        self._limit = limit
        self._size = 0
        self._held: Dict[Callable[[], None], List[bytes]] = {}
        self._counts: Dict[int, int] = {}

    def hold(self, give_up: Callable[[], None], frame: bytes) -> None:
        """Adds a frame."""
        self._held.setdefault(give_up, []).append(frame)
        count = self._counts.get(id(frame), 0)
        self._counts[id(frame)] = count + 1
        self._size += 0 if count else len(frame)
        while self._size > self._limit:
            oldest = next(iter(self._held))
            self.release(oldest)
            oldest()

    def release(self, give_up: Callable[[], None]) -> None:
        """Removes all frames that were added with a function."""
        for frame in self._held.pop(give_up, ()):
            self._counts[id(frame)] -= 1
            if not self._counts[id(frame)]:
                del self._counts[id(frame)]
                self._size -= len(frame)
