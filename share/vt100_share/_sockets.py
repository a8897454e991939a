"""What the server uses of the package `websockets`: the protocol of WebSockets, without its
connections and tasks."""

from __future__ import annotations

import functools
import importlib
import logging
import re
import zlib
from typing import Any, Callable, Generator, List, Optional, Tuple

from . import _messages as messages
from ._site import Response

#: The shortest message that is compressed, in bytes.
_MIN_COMPRESSED = 64

#: The window of the compression, as a power of two: the largest one.
_WINDOW_BITS = 15

#: What permessage-deflate removes from the end of a message.
_EMPTY_BLOCK = b"\0\0\xff\xff"

#: The number of bytes of frames that are kept for viewers that get the same message.
_MAX_FRAMES = 1 << 22

#: The first line of a request. The package reads only those that begin with GET.
_REQUEST = re.compile(rb"([A-Z]{1,20}) ([!-~]+) HTTP/1\.[01]\r\n")

#: A request for a WebSocket up to its last header, and the header that asks for compression.
_HANDSHAKE = (
    b"GET / HTTP/1.1\r\nConnection: Upgrade\r\nUpgrade: websocket\r\n"
    b"Sec-WebSocket-Version: 13\r\nSec-WebSocket-Key: AAAAAAAAAAAAAAAAAAAAAA==\r\n"
)
_ASKS_FOR_COMPRESSION = b"Sec-WebSocket-Extensions: permessage-deflate\r\n"

#: The package would log what strangers send, and would take half of the time of a handshake to do
#: so for nobody.
_QUIET = logging.Logger("websockets", logging.CRITICAL + 1)


class NoLibrary(Exception):
    """Raised if there is no usable `websockets`."""


class Malformed(Exception):
    """Raised for data that is no request and no frame."""


def library(part: str = "") -> Any:
    """Returns the package `websockets` or a part of it, such as ".frames". Raises `NoLibrary`."""
    try:
        return importlib.import_module(f"websockets{part}")
    except ImportError:
        raise NoLibrary(
            "the package websockets is required: pip install websockets, or on Debian "
            "apt install python3-websockets"
        ) from None


class _Inflation:
    """An extension that does for a message in one frame what permessage-deflate does without
    context takeover (RFC 7692, section 7.2.2). That of the package copies each frame twice, which
    takes longer than to decompress an acknowledgement."""

    name = "inflation"

    def decode(self, frame: Any, *, max_size: int) -> Any:
        if frame.rsv1 and frame.fin:
            inflater = zlib.decompressobj(wbits=-_WINDOW_BITS)
            frame.data = inflater.decompress(frame.data + _EMPTY_BLOCK, max_size)
            frame.rsv1 = bool(inflater.unconsumed_tail)  # true, and so an error, if it is too long
        return frame


class _Chunk:
    """Received bytes, as the package reads them."""

    def __init__(self, data: bytes) -> None:
        self.rest = data

    def read_exact(self, count: int) -> Generator[None, None, bytes]:
        while len(self.rest) < count:
            yield
        data, self.rest = self.rest[:count], self.rest[count:]
        return data


class _Compression:
    """A factory for the extension that refuses viewers that want smaller windows than that of the
    frames that all viewers share."""

    def __init__(self, factory: Any, refusal: Callable[[str], Exception]) -> None:
        self.name = factory.name
        self._factory, self._refusal = factory, refusal

    def process_request_params(self, parameters: Any, accepted: Any) -> Any:
        response, extension = self._factory.process_request_params(parameters, accepted)
        if extension.local_max_window_bits < _WINDOW_BITS:
            raise self._refusal("the window is too small")
        return response, extension


class WebSockets:
    """Protocols and frames. A protocol reads and writes one connection.

    The extension permessage-deflate (RFC 7692) is used without context takeover: each message is
    compressed alone, and so once for all viewers, and a connection needs no memory for it.
    """

    def __init__(self) -> None:
        server = library(".server")
        if hasattr(server, "ServerProtocol"):
            self._make, protocol = server.ServerProtocol, library(".protocol")
        elif hasattr(server, "ServerConnection"):  # the names before version 11
            self._make, protocol = server.ServerConnection, library(".connection")
        else:
            raise NoLibrary("the package websockets is older than version 10")
        #: The state of a protocol between the handshake and the beginning of the end.
        self.open: Any = protocol.State.OPEN
        self._frames = library(".frames")
        self._deflate = library(".extensions.permessage_deflate")
        factory = self._deflate.ServerPerMessageDeflateFactory(
            server_no_context_takeover=True, client_no_context_takeover=True
        )
        refusal = library(".exceptions").NegotiationError
        self._extensions = [_Compression(factory, refusal)]
        self._inflation = [_Inflation()]
        opcodes = self._frames.Opcode
        self._whole = opcodes.BINARY, opcodes.PONG
        #: The frame of a ping.
        self.ping: bytes = self._frames.Frame(opcodes.PING, b"").serialize(mask=False)
        self._response: Any = library(".http11").Response
        self._headers: Any = library(".datastructures").Headers
        self._made_len = 0
        #: Returns the frame of a message, compressed or not. It is made once for all viewers.
        self.frame = functools.lru_cache(maxsize=None)(self._counted_frame)

    def protocol(self) -> Any:
        """Returns a protocol for a new connection."""
        return self._make(
            extensions=self._extensions, max_size=messages.MAX_RECEIVED, logger=_QUIET
        )

    def opened(self, is_compressed: bool) -> Any:
        """Returns a protocol that has replied to a handshake, and so is between two messages of an
        open connection."""
        protocol = self.protocol()
        asked = _ASKS_FOR_COMPRESSION if is_compressed else b""
        protocol.receive_data(_HANDSHAKE + asked + b"\r\n")
        protocol.send_response(protocol.accept(protocol.events_received()[0]))
        protocol.data_to_send()
        return protocol

    def request(self, protocol: Any, data: bytes) -> Tuple[str, Any]:
        """Has a protocol read a request. Returns its method, and the request. Raises
        `Malformed`."""
        found = _REQUEST.match(data)
        if found is None:
            raise Malformed()
        method, target = found.groups()
        requests = self.events(protocol, b"GET %b HTTP/1.1\r\n" % target + data[found.end() :])
        if not requests:
            raise Malformed()
        return method.decode(), requests[0]

    def events(self, protocol: Any, data: bytes) -> List[Any]:
        """Has a protocol read data. Returns the requests and frames in it. Raises `Malformed`."""
        try:
            protocol.receive_data(data)
            events: List[Any] = protocol.events_received()
            return events
        except Exception:  # what a version of the package raises for malformed data
            raise Malformed() from None

    def frame_in(self, data: bytes, is_compressed: bool) -> Tuple[Any, int]:
        """Returns the frame at the beginning of data that begins between two messages, and its
        length, if it is a whole binary message or a pong. Most of what viewers send is such a
        frame, which a protocol takes three times as long to read. A protocol must read all else:
        then returns None, and the length of another control frame, or 0."""
        chunk = _Chunk(data)
        reading = self._frames.Frame.parse(
            chunk.read_exact,
            mask=True,
            max_size=messages.MAX_RECEIVED,
            extensions=self._inflation if is_compressed else None,
        )
        try:
            next(reading)
        except StopIteration as end:
            frame: Any = end.value
            length = len(data) - len(chunk.rest)
            if frame.opcode in self._whole and frame.fin:
                return frame, length
            return None, length if frame.opcode > 7 else 0
        except Exception:  # what a version of the package raises for a malformed frame
            pass
        return None, 0

    def respond(self, protocol: Any, request: Any, found: Optional[Response]) -> bool:
        """Has a protocol send a response without its body, or one that opens a WebSocket. Returns
        whether messages are compressed from now on. Raises `Malformed`."""
        try:
            if found is None:
                response = protocol.accept(request)
            else:
                headers = self._headers(found.headers)
                response = self._response(found.status, found.reason, headers)
            protocol.send_response(response)
        except Exception:  # what a version of the package raises for malformed headers
            raise Malformed() from None
        return "Sec-WebSocket-Extensions" in response.headers

    def _counted_frame(self, message: bytes, is_compressed: bool) -> bytes:
        """Returns the frame of a message. Has earlier ones forgotten if they are too long."""
        if self._made_len > _MAX_FRAMES:
            self.frame.cache_clear()
            self._made_len = 0
        frame = self._frame(message, is_compressed)
        self._made_len += len(message) + len(frame)
        return frame

    def _frame(self, message: bytes, is_compressed: bool) -> bytes:
        frame = self._frames.Frame(self._frames.Opcode.BINARY, message)
        data: bytes = frame.serialize(mask=False, extensions=[])
        if is_compressed and len(message) >= _MIN_COMPRESSED:
            extension = self._deflate.PerMessageDeflate(True, True, _WINDOW_BITS, _WINDOW_BITS)
            packed: bytes = frame.serialize(mask=False, extensions=[extension])
            return min(data, packed, key=len)
        return data
