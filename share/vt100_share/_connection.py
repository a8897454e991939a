"""A connection: a request for a file, or a viewer."""

from __future__ import annotations

import asyncio
import socket
import time
from typing import TYPE_CHECKING, Any, List, Optional, cast

from . import _messages as messages
from ._output import Output
from ._share import Audience
from ._sockets import Malformed
from ._viewers import Viewer

if TYPE_CHECKING:
    from ._server import Server

#: How long a connection may take for its request, and then for its token, in seconds.
STRANGER_PATIENCE = 2.0

#: How long the other end may take to read some of a response, in seconds.
READER_PATIENCE = 10.0

#: After how many seconds of silence a viewer gets a ping, and after how many it is cut off.
PING_AFTER, GONE_AFTER = 20.0, 60.0

#: The longest request, in bytes, what ends one, and how much may follow it before the token.
_MAX_REQUEST = 16384
_END_OF_REQUEST = b"\r\n\r\n"
_MAX_EARLY = 4096

#: How many bytes a protocol reads before its frames are judged.
_PART = 4096

#: Opcodes of frames (RFC 6455, section 5.2). Those of control frames are not less than `_CLOSE`.
_TEXT, _CLOSE, _PING = 1, 8, 9

#: How many replies to pings may wait in the process.
_MAX_PINGS = 16

#: Codes of a close frame (RFC 6455, section 7.4.1).
NORMAL, _VIOLATION, _TRY_LATER = 1000, 1008, 1013


class Connection(asyncio.Protocol):
    """A connection of a server: a stranger at first, who then reads a response or becomes a
    viewer."""

    __slots__ = (
        *("_server", "_sockets", "_socket", "_transport", "_output", "_kept_protocol", "_request"),
        *("_is_upgraded", "_is_open", "_is_compressed", "_is_plain", "_early", "_parts"),
        *("_share", "_viewer", "_heard", "_unread", "_is_pinged", "_pings"),
    )

    def __init__(self, server: Server, connected: socket.socket) -> None:
        self._server, self._sockets, self._socket = server, server.sockets, connected
        self._kept_protocol: Any = None
        self._request: Optional[bytes] = b""  # its bytes so far, or None when it has been read
        self._is_upgraded = False  # whether it is a WebSocket
        self._is_open = False  # whether messages can be sent
        self._is_compressed = False
        self._is_plain = True  # whether the protocol is surely between two messages
        self._early = 0  # how many bytes have followed the request of a stranger
        self._parts: Optional[List[bytes]] = None  # those of an incomplete message
        self._share: Optional[Audience] = None
        self._viewer: Optional[Viewer] = None
        self._heard = time.monotonic()  # when the other end has last got on
        self._unread: Optional[int] = None  # how many bytes of a response it has not read
        self._is_pinged = False
        self._pings = 0  # how many have arrived since all that was sent had left the process

    # ---- what asyncio calls

    def connection_made(self, transport: asyncio.BaseTransport) -> None:
        self._transport = cast(asyncio.Transport, transport)
        self._output = Output(self._socket, self._transport)
        self._server.add(self)

    def connection_lost(self, error: Optional[Exception]) -> None:
        self._is_open = False
        self._leave()
        self._server.remove(self)

    def _leave(self) -> None:
        if self._share is not None and self._viewer is not None:
            self._share.remove(self._viewer)

    def pause_writing(self) -> None:
        self._output.pause()
        self._drained()

    def resume_writing(self) -> None:
        self._output.resume()
        self._drained()

    def _drained(self) -> None:
        """Takes note of whether all that was sent has left the process."""
        is_drained = self._output.is_empty
        if is_drained:
            self._pings = 0
            self._server.backlog.release(self.abort)
        if self._share is not None and self._viewer is not None:
            self._viewer.is_drained = is_drained
            if is_drained and self._viewer.is_behind:
                self._share.offer(self._viewer)

    def data_received(self, data: bytes) -> None:
        if self._viewer is not None:
            self._heard, self._is_pinged = time.monotonic(), False
        try:
            if self._request is not None:
                data = self._read_request(self._request + data)
            if data and self._is_upgraded:
                self._read_frames(data)
        except messages.Nonsense as fault:
            self._cut_off(_VIOLATION, str(fault))
        except Malformed:
            self.turn_away()

    def eof_received(self) -> bool:
        self._is_open = False
        return False  # closes the connection

    # ---- the request

    def _read_request(self, data: bytes) -> bytes:
        """Replies to a request, if the data contains all of it. Returns the data after it. Raises
        `Malformed` if the request is malformed or too long."""
        end = data.find(_END_OF_REQUEST)
        if end < 0 and len(data) <= _MAX_REQUEST:
            self._request = data
            return b""
        if not 0 <= end <= _MAX_REQUEST:
            raise Malformed()
        end += len(_END_OF_REQUEST)
        self._request = None
        self._heard = time.monotonic()
        protocol = self._sockets.protocol()
        method, request = self._sockets.request(protocol, data[:end])
        found = self._server.site.respond(method, request.path, request.headers)
        self._is_compressed = self._sockets.respond(protocol, request, found)
        self._is_upgraded = protocol.state is self._sockets.open
        self._flush(protocol, b"" if found is None or method == "HEAD" else found.body)
        if not self._is_upgraded:
            self._unread = self._output.unread_len
            self._server.reads(self)
        return data[end:]

    # ---- messages

    def _read_frames(self, data: bytes) -> None:
        if self._viewer is None:
            self._early += len(data)
            if self._early > _MAX_EARLY:
                raise messages.Nonsense("too much before the token")
        while data and self._is_plain:
            frame, length = self._sockets.frame_in(data, self._is_compressed)
            if frame is None:
                self._read_by_protocol(data[:length])
            else:
                self._take(frame)
            self._is_plain = length > 0
            data = data[length:]
        if data:
            self._read_by_protocol(data)

    def _read_by_protocol(self, data: bytes) -> None:
        for at in range(0, len(data), _PART):
            for frame in self._sockets.events(self._protocol, data[at : at + _PART]):
                self._take(frame)
            self._flush(self._protocol)

    @property
    def _protocol(self) -> Any:
        """The protocol of an open connection. Most connections only send whole messages until their
        end: 10,000 protocols would take over 40 MB, so each is made when it is needed."""
        if self._kept_protocol is None:
            self._kept_protocol = self._sockets.opened(self._is_compressed)
        return self._kept_protocol

    def _take(self, frame: Any) -> None:
        if self._is_open and frame.opcode < _CLOSE:
            self._take_data(frame)
        elif self._is_open and frame.opcode > _CLOSE:
            self._take_control(frame)

    def _take_data(self, frame: Any) -> None:
        """Takes a frame with a message or a part of one."""
        if frame.opcode == _TEXT:
            raise messages.Nonsense("messages are binary")
        if frame.fin and self._parts is None:
            self._message(bytes(frame.data))
            return
        if self._viewer is not None:
            self._viewer.take(0)
        self._parts = self._parts or []
        self._parts.append(bytes(frame.data))
        if frame.fin:
            message, self._parts = b"".join(self._parts), None
            self._message(message)
        elif len(self._parts) > messages.MAX_RECEIVED:
            raise messages.Nonsense("too many fragments")

    def _take_control(self, frame: Any) -> None:
        """Takes a ping or a pong, which counts as a message. The replies to pings of a viewer that
        reads nothing would fill the memory."""
        if self._viewer is None:
            raise messages.Nonsense("the token is the first message")
        self._viewer.take(len(frame.data))
        if frame.opcode == _PING and not self._viewer.is_drained:
            self._pings += 1
            if self._pings > _MAX_PINGS:
                raise messages.Nonsense("too many pings before earlier messages were read")

    def _message(self, message: bytes) -> None:
        if self._share is not None and self._viewer is not None:
            self._share.receive(self._viewer, message)
            return
        may_write = self._server.tokens.check(message[1:]) if message[:1] == b"t" else None
        if may_write is None:
            raise messages.Nonsense("the token is wrong")
        share = self._server.share
        if share is None or share.viewer_count >= self._server.max_viewers:
            self._cut_off(_TRY_LATER, "there are too many viewers, or there is no program")
            return
        self._share, self._viewer = share, Viewer(may_write, self._send)
        self._viewer.is_drained = self._output.is_empty
        self._server.welcome(self)
        share.add(self._viewer)

    def _send(self, message: bytes) -> None:
        if self._is_open:
            frame = self._sockets.frame(message, self._is_compressed)
            if not self._output.write(frame):
                self._server.backlog.hold(self.abort, frame)

    def _flush(self, protocol: Any, body: bytes = b"") -> None:
        """Sends what a protocol has to send, and the body of a response. An empty chunk ends the
        connection."""
        self._is_open = protocol.state is self._sockets.open
        for data in protocol.data_to_send():
            if data:
                self._output.write(data)
            else:
                self._output.write(body)
                self._output.close()

    # ---- ends

    def turn_away(self) -> None:
        """Ends the connection of a stranger."""
        self._server.turned_away += 1
        self.abort()

    def _cut_off(self, code: int, reason: str) -> None:
        """Ends the connection of who broke a rule, which is a stranger from then on."""
        if not self._is_open:  # it was cut off, and sends on
            self.turn_away()
            return
        self._leave()
        self._viewer = None
        self._heard = time.monotonic()
        self._server.turned_away += 1
        self._server.distrust(self)
        self._protocol.fail(code, reason)
        self._flush(self._protocol)

    def end(self, code: int, reason: str) -> None:
        """Begins the end of the connection."""
        if self._is_open:
            self._protocol.send_close(code, reason)
            self._flush(self._protocol)
        elif not self._is_upgraded:
            self._output.close()

    def abort(self) -> None:
        """Ends the connection at once."""
        self._is_open = False
        self._transport.abort()

    def check_time(self, now: float) -> None:
        """Ends a connection that is silent or that does not get on, and pings a silent viewer."""
        if self._unread is not None:
            unread = self._output.unread_len
            if unread < self._unread:
                self._heard, self._unread = now, unread
            if now - self._heard > READER_PATIENCE:
                self.abort()
        elif self._viewer is None:
            if now - self._heard > STRANGER_PATIENCE:
                self.turn_away()
        elif now - self._heard > GONE_AFTER:
            self.abort()
        elif self._is_open and not self._is_pinged and now - self._heard > PING_AFTER:
            self._is_pinged = True
            self._output.write(self._sockets.ping)
