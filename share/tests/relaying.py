"""A Redis server and relays of vt100-share within the tests."""

import asyncio
import shutil
import signal
import socket
import subprocess
import tempfile
import time
import unittest

import sharing
from sharing import Client, Shared
from vt100_share._publish import Publisher
from vt100_share._redis import Redis
from vt100_share._relay import Relay
from vt100_share._server import Server
from vt100_share._site import Site
from vt100_share._viewers import Tokens

try:
    import redis.asyncio as redis
except ImportError:
    redis = None

TOKEN = "the-token-of-the-relays"

#: A program that writes what it reads.
CAT = ["sh", "-c", "stty -echo; exec cat"]


def needs_redis(test):
    """Leaves out a test that needs Redis, its package and that of the server."""
    for is_there, reason in (
        (sharing.sockets is not None, "the package websockets is not installed"),
        (redis is not None, "the package redis, version 4.2 or newer, is not installed"),
        (shutil.which("redis-server"), "there is no redis-server"),
    ):
        if not is_there:
            return unittest.skip(reason)(test)
    return test


def free_port():
    with socket.socket() as one:
        one.bind(("127.0.0.1", 0))
        return one.getsockname()[1]


class RedisServer:
    """A Redis server on a port of its own, with its files in a temporary directory."""

    def __init__(self, *options):
        self.folder = tempfile.TemporaryDirectory()
        self.port = free_port()
        self.url = self.url_for("")
        self.options = options
        self.process = None

    def url_for(self, user):
        """Returns the address, with a user and a password if `user` is not empty."""
        return f"redis://{user and user + '@'}127.0.0.1:{self.port}/0"

    def start(self):
        command = ["redis-server", "--port", str(self.port), "--bind", "127.0.0.1"]
        command += ["--dir", self.folder.name, "--save", "", *self.options]
        if shutil.which("setpriv"):  # so that it ends even if the tests are killed
            command = ["setpriv", "--pdeathsig", "KILL", *command]
        quiet = subprocess.DEVNULL
        self.process = subprocess.Popen(command, stdin=quiet, stdout=quiet, stderr=quiet)
        end = time.monotonic() + 10
        while True:
            try:
                with socket.create_connection(("127.0.0.1", self.port), 1) as one:
                    one.sendall(b"PING\r\n")
                    if one.recv(100).startswith((b"+PONG", b"-NOAUTH")):
                        return self
            except OSError:
                pass
            if time.monotonic() > end:
                raise RuntimeError("redis-server does not start")
            time.sleep(0.02)

    def send_signal(self, number):
        self.process.send_signal(number)

    def kill(self):
        self.process.send_signal(signal.SIGKILL)
        self.process.wait()

    def call(self, *words):
        """Returns the reply of `redis-cli` to a command."""
        command = ["redis-cli", "-p", str(self.port), *words]
        return subprocess.check_output(command, universal_newlines=True).strip()

    def __enter__(self):
        return self.start()

    def __exit__(self, *_):
        self.kill()
        self.folder.cleanup()


class Published(Shared):
    """A program and its server, which publishes to Redis, within this process."""

    def __init__(
        self, server, command, size=(24, 80), name="stream", token=TOKEN, user="", scrollback=0
    ):
        super().__init__(command, size, scrollback=scrollback)
        self.redis, self.name, self.token, self.user = server, name, token, user
        self.reports = []

    async def __aenter__(self):
        await super().__aenter__()
        client = client_of(self.redis, self.user)
        self.publisher = Publisher(self.share, client, self.name, self.reports.append, self.token)
        return self

    async def __aexit__(self, *error):
        await self.publisher.close()
        await super().__aexit__(*error)


class Relayed:
    """A relay and its server, within this process."""

    def __init__(self, server, name="stream", token=TOKEN, user=""):
        self.redis, self.name, self.token, self.user = server, name, token, user
        self.reports, self.clients = [], []

    async def __aenter__(self):
        self.tokens = Tokens(self.token is not None)
        self.server = Server(Site(sharing.PAGE, "127.0.0.1", []), self.tokens, 100)
        self.port = await self.server.start("127.0.0.1", 0, self.reports.append)
        client = client_of(self.redis, self.user)
        self.share = self.server.share = Relay(client, self.name, self.reports.append, self.token)
        return self

    async def __aexit__(self, *_):
        await self.share.wait_closed()
        for one in self.clients:
            one.close()
        await self.server.close()

    async def viewer(self, token=None):
        self.clients.append(Client(self.port))
        return await self.clients[-1].open(self.tokens.read if token is None else token)


def client_of(server, user=""):
    return Redis(server.url_for(user))


def screen_of(parser):
    """Returns what a screen displays, cell by cell, and its modes."""
    size = parser.size
    cells = [[repr(cell) for cell in row] for row in parser.buffer]
    wrapped = [parser.row_wrapped(row) for row in range(size[0])]
    return size, cells, wrapped, parser.cursor, parser.state_formatted()


async def within(seconds, awaitable):
    return await asyncio.wait_for(awaitable, seconds)


async def cancel(tasks):
    """Cancels tasks until they have ended: version 4.3 of the package redis may lose a cancellation."""
    pending = set(tasks)
    while pending:
        for task in pending:
            task.cancel()
        _, pending = await asyncio.wait(pending, timeout=0.1)


async def until(condition, seconds=20):
    """Waits for a condition."""
    end = time.monotonic() + seconds
    while not condition():
        if time.monotonic() > end:
            raise AssertionError("waited in vain")
        await asyncio.sleep(0.02)


class Case(unittest.TestCase):
    """Tests that compare the screens of viewers with that of the program's server."""

    def assert_same(self, viewer, shared):
        """Compares the screen of a viewer with that of the program's server."""
        self.assertEqual(screen_of(viewer.parser), screen_of(shared.share.cohort.parser))

    async def until_same(self, viewer, shared):
        """Reads messages until the viewer has the server's screen, and is not stale."""
        parser = shared.share.cohort.parser
        while viewer.parser is None or viewer.is_stale or viewer.parser != parser:
            await within(20, viewer.next())
        self.assert_same(viewer, shared)
