"""A server of vt100-share within the tests, and its viewers."""

import asyncio
import json
import os
import random
import socket
import struct
import unittest
import zlib

import vt100
from vt100_share._program import Program
from vt100_share._server import Server
from vt100_share._share import Share
from vt100_share._site import Site
from vt100_share._viewers import Tokens

try:
    from websockets import client as sockets
    from websockets.extensions.permessage_deflate import ClientPerMessageDeflateFactory
    from websockets.uri import parse_uri
except ImportError:
    sockets = None

needs_websockets = unittest.skipIf(sockets is None, "the package websockets is not installed")

CHECKOUT = os.path.join(os.path.dirname(os.path.abspath(__file__)), os.pardir, os.pardir)
SESSION = os.path.join(CHECKOUT, "crates", "example_cast", "stdin")

#: The module for JavaScript.
MODULE = os.environ.get("VT100_WASM") or os.path.join(CHECKOUT, "bindings", "js", "vt100.wasm")

PAGE = {"/": ("text/html", b"page")}

# A program whose output is its input. Its title says when the terminal itself no longer echoes.
ECHO = ["sh", "-c", "stty -echo raw; printf '\\033]2;ready\\007'; exec cat"]

#: Opcodes of frames, and the bit of one that is compressed.
CONTINUATION, TEXT, BINARY, CLOSE, PING, PONG = 0, 1, 2, 8, 9, 10
COMPRESSED = 0x40


def python_path(*more):
    """Returns the value of PYTHONPATH with which another process finds the packages."""
    packages = os.path.join(CHECKOUT, "share"), os.path.join(CHECKOUT, "bindings", "python")
    given = os.environ.get("PYTHONPATH")
    return os.pathsep.join([*more, *packages, *([given] if given else [])])


def recorded():
    """Returns the output of a recorded session."""
    with open(SESSION, encoding="utf-8") as file:
        next(file)
        events = [json.loads(line) for line in file if line.startswith("[")]
    return "".join(text for _, kind, text in events if kind == "o").encode()


def noise(seed, count=20000):
    """Returns random output: text, wide characters, controls and sequences."""
    rng = random.Random(seed)
    parts = []
    for _ in range(count // 8):
        number = rng.randrange(30)
        parts.append(
            rng.choice(
                (
                    "text ", "\r\n", "\u4e2d", "e\u0301", "\t", "\u2764\ufe0f",
                    f"\x1b[{number};{number}H", f"\x1b[{rng.randrange(50)}m", f"\x1b[{number}L",
                    f"\x1b[{number}M", "\x1b[J", "\x1b[K", f"\x1b[{number}S", f"\x1b[{number}P",
                    "\x1b[3;9r", "\x1b[r", "\x1b[?1h", "\x1b[?1l", "\x1b[?2004h", "\x1b]2;t\x07",
                    "\x1b[?1049h", "\x1b[?1049l", "\x1b[?25l", "\x1b[?25h", "\x1bM", "\x1b[6n",
                )
            )
        )
    return "".join(parts).encode()


def frame(kind, data, is_last=True, length=None):
    """Returns a masked frame. `length` is how its length is encoded, if it is not the usual way."""
    mask = b"\x01\x02\x03\x04"
    if length is None:
        count = len(data)
        length = bytes([0x80 | count]) if count < 126 else struct.pack(">BH", 0xFE, count)
    masked = bytes(byte ^ mask[at % 4] for at, byte in enumerate(data))
    return bytes([kind | (0x80 if is_last else 0)]) + length + mask + masked


def packed(data):
    """Returns a compressed message (RFC 7692, section 7.2.1)."""
    deflate = zlib.compressobj(wbits=-15)
    return (deflate.compress(data) + deflate.flush(zlib.Z_SYNC_FLUSH))[:-4]


def scrollback_of(screen):
    """Returns the rows of a scrollback: cells, and whether the row is wrapped."""
    rows = []
    for number, cells in enumerate(screen.history):
        screen.set_scrollback(len(screen.history) - number)
        rows.append((cells, screen.row_wrapped(0)))
    screen.set_scrollback(0)
    return rows


def first_difference(found, expected):
    """Returns the first place at which the ends of two lists of rows differ, or None. `found` may
    begin earlier. (Descriptions of all rows would take minutes to compare.)"""
    if len(found) < len(expected):
        return f"{len(found)} rows instead of {len(expected)}"
    for place, (one, other) in enumerate(zip(found[len(found) - len(expected) :], expected)):
        if one != other:
            return f"row {place}: {one} instead of {other}"
    return None


class Rows:
    """The rows that have scrolled off, as a viewer reads them."""

    def __init__(self, rows, cols):
        self.parser = vt100.Parser(rows, cols, scrollback=100000)
        self.end = None
        self.losses = 0

    def take(self, message):
        number, count, cols = struct.unpack_from(">IHH", message, 1)
        if self.end not in (None, number):
            self.parser.clear_scrollback()
            self.losses += 1
        self.end = number + count
        before = len(self.parser.history)
        self.parser.process(b"\x1b[m\x1b[H\x1b[J")
        self.parser.set_size(self.parser.lines, cols)
        self.parser.process(message[9:])
        row, _ = self.parser.cursor
        self.parser.process(b"\x1b[%dH" % self.parser.lines + b"\n" * row)
        assert len(self.parser.history) == before + count, "not as many rows as the message says"


class Terminal:
    """The terminal of a viewer."""

    def __init__(self):
        self.parser = self.title = self.status = self.may_write = self.rows = None
        self.is_alternate = False
        self.taken = 0
        self.read = self.redraws = self.updates = 0
        self.counts = (0, 0)
        self.is_stale = False

    def take(self, message):
        kind = message[:1]
        if kind == b"F":
            self.parser = vt100.Parser(*struct.unpack_from(">HH", message, 1))
            self.parser.process(message[5:])
            self.redraws += 1
        elif kind == b"D":
            self.parser.process(message[1:])
            self.updates += 1
        elif kind == b"H":
            self.rows = self.rows or Rows(*self.parser.size)
            self.rows.take(message)
        elif kind == b"T":
            self.title = message[1:].decode()
        elif kind == b"V":
            self.counts = struct.unpack(">II", message[1:])
        elif kind == b"S":
            self.is_stale = {b"S0": False, b"S1": True}[message]
        elif kind == b"A":
            self.is_alternate = {b"A0": False, b"A1": True}[message]
        elif kind == b"I":
            (self.taken,) = struct.unpack(">I", message[1:])
        elif kind == b"X":
            self.status = int(message[1:])
        else:
            self.may_write = {b"W0": False, b"W1": True}[message]
        if kind in b"FDH":
            self.read += len(message)


class Closed(Exception):
    """Raised when the server has ended a connection; `args` has the code, if there was one."""


class Client(Terminal):
    """A viewer on a WebSocket."""

    writers = []  # those of all clients, which `Shared` closes

    def __init__(self, port, origin=None, host=None, path="/viewer"):
        super().__init__()
        uri = f"ws://127.0.0.1:{port}{path}"
        make = getattr(sockets, "ClientProtocol", None) or sockets.ClientConnection
        self.protocol = make(parse_uri(uri), origin=origin)
        self.port, self.host = port, host
        self.messages = []
        self.received = []
        self.acknowledges = True

    async def open(self, token=None):
        self.reader, self.writer = await asyncio.open_connection("127.0.0.1", self.port)
        self.writers.append(self.writer)
        request = self.protocol.connect()
        if self.host is not None:
            del request.headers["Host"]
            request.headers["Host"] = self.host
        self.protocol.send_request(request)
        await self._flush()
        while self.protocol.state.name == "CONNECTING":
            await self._receive()
        if token is not None:
            await self.send(b"t" + token.encode())
        return self

    async def _flush(self):
        for data in self.protocol.data_to_send():
            if data:
                self.writer.write(data)
        try:
            await self.writer.drain()
        except ConnectionError:
            raise Closed() from None

    async def _receive(self):
        try:
            data = await asyncio.wait_for(self.reader.read(65536), 15)
        except ConnectionError:
            data = b""
        if not data:
            raise Closed()
        self.protocol.receive_data(data)
        for event in self.protocol.events_received():
            if not hasattr(event, "opcode"):
                if event.status_code != 101:
                    raise Closed(event.status_code)
            elif event.opcode.name == "BINARY":
                self.messages.append(bytes(event.data))
                self.received.append(self.messages[-1])
            elif event.opcode.name == "CLOSE":
                await self._flush()
                raise Closed(int.from_bytes(event.data[:2], "big"))
        await self._flush()

    async def send(self, message):
        self.protocol.send_binary(message)
        await self._flush()

    async def next(self):
        """Reads the next message, and acknowledges it."""
        while not self.messages:
            try:
                await self._receive()
            except Closed:
                if not self.messages:
                    raise
                self.acknowledges = False  # the messages before the end are read, too
        before = self.read
        self.take(self.messages.pop(0))
        if self.acknowledges and self.read != before:
            await self.acknowledge()

    async def acknowledge(self):
        await self.send(b"a" + struct.pack(">I", self.read & 0xFFFFFFFF))

    async def until(self, text):
        while self.parser is None or text not in self.parser.contents():
            await self.next()

    async def until_true(self, condition):
        """Reads messages until a condition holds."""
        while not condition():
            await self.next()

    async def until_end(self):
        """Reads messages until the program has ended."""
        while self.status is None:
            await self.next()
        return self

    def close(self):
        self.writer.close()


class Compressing(Client):
    """A viewer that asks for compression."""

    def __init__(self, port, **how):
        super().__init__(port)
        self.protocol.available_extensions = [ClientPerMessageDeflateFactory(**how)]


async def slow(port):
    """Returns the streams of a connection with little room for what arrives."""
    one = socket.socket()
    one.setsockopt(socket.SOL_SOCKET, socket.SO_RCVBUF, 4096)
    one.setblocking(False)
    await asyncio.get_running_loop().sock_connect(one, ("127.0.0.1", port))
    reader, writer = await asyncio.open_connection(sock=one, limit=4096)
    Client.writers.append(writer)
    return reader, writer


class Shared:
    """A program and its server, within this process."""

    def __init__(self, command, size=(24, 80), viewers=100, scrollback=0):
        self.command, self.size, self.viewers = command, size, viewers
        self.scrollback, self.reports = scrollback, []

    async def __aenter__(self):
        self.tokens = Tokens(True)
        self.server = Server(Site(PAGE, "127.0.0.1", []), self.tokens, self.viewers)
        self.port = await self.server.start("127.0.0.1", 0, self.reports.append)
        self.program = Program(self.command, *self.size)
        self.share = Share(self.program, *self.size, scrollback=self.scrollback)
        self.server.share = self.share
        return self

    async def __aexit__(self, *_):
        loop = asyncio.get_running_loop()
        loop.remove_reader(self.program.file)
        loop.remove_writer(self.program.file)
        self.program.kill()
        while Client.writers:
            Client.writers.pop().close()
        await self.server.close()

    async def viewer(self, token=None, **how):
        return await Client(self.port, **how).open(self.tokens.read if token is None else token)

    @property
    def contents(self):
        """The redraw and the input modes of the server's screen."""
        return self.share.cohort.parser.state_formatted()


async def ready(shared):
    """Waits until the terminal of ECHO no longer echoes."""
    while shared.share.title != b"ready":
        await asyncio.sleep(0.01)
