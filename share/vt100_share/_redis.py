"""Access to Redis, by the package `redis`."""

from __future__ import annotations

import asyncio
import contextlib
import importlib
import os
import re
from typing import Any, Callable, Dict, List, Optional, Tuple
from urllib.parse import urlsplit

from ._loop import Delays
from ._sockets import NoLibrary

#: How many entries of a stream are read at a time.
READ_COUNT = 16

#: How long a read waits for new entries, in seconds.
READ_WAIT = 0.5

#: After how many seconds without a reply a connection counts as lost.
_TIMEOUT = 3.0

#: How long after an error the next attempt is made, in seconds: at most this first time, and later.
_DELAYS = 0.1, 2.0

#: The environment variable with the password, unless the address contains one: that of `redis-cli`.
_PASSWORD = "REDISCLI_AUTH"

#: The code at the beginning of a reply that is an error. Some versions of the package quote it.
_CODE = re.compile(r"(?:\(['\"])?([A-Z]{3,20})\b")

#: How many characters of an error are reported.
_MAX_TEXT = 200

Entries = List[Tuple[bytes, Dict[bytes, bytes]]]


class BadAddress(Exception):
    """Raised for an address that is not one of a Redis server."""


class Redis:
    """A Redis server. Connections are made as they are needed; after an error, the next call
    connects again. Methods raise `errors`."""

    def __init__(self, url: str) -> None:
        try:
            library: Any = importlib.import_module("redis.asyncio")
        except ImportError:
            raise NoLibrary(
                "the package redis, version 4.2 or newer, is required: pip install redis, or on "
                "Debian apt install python3-redis"
            ) from None
        #: What the server is called in messages: the address without a password.
        self.label = _label(url)
        more = dict(socket_timeout=_TIMEOUT, socket_connect_timeout=_TIMEOUT)
        try:
            self.client: Any = library.Redis.from_url(
                url, password=os.environ.get(_PASSWORD), **more
            )
        except ValueError:
            raise BadAddress(f"{self.label}: not an address of Redis") from None
        exceptions: Any = importlib.import_module("redis.exceptions")
        self.errors = (exceptions.RedisError, OSError, EOFError, asyncio.TimeoutError)
        #: Those whose text does not quote a reply of the server.
        self.local_errors = (exceptions.ConnectionError, exceptions.TimeoutError, OSError)

    async def check(self, *names: str) -> None:
        """Raises one of `errors` unless the server can be reached, and each name is free or that of
        a stream that may be read."""
        await self.client.xread({name: "0-0" for name in names}, count=1)

    async def read(self, places: Dict[str, bytes], can_wait: bool = True) -> Dict[str, Entries]:
        """Returns the entries of streams after places: at most `READ_COUNT` of each. If there are
        none and it can wait, it waits for those of one stream, but no longer than `READ_WAIT`
        seconds."""
        wait = int(1000 * READ_WAIT) if can_wait else None
        found: Dict[str, Entries] = {name: [] for name in places}
        for name, entries in await self.client.xread(places, count=READ_COUNT, block=wait):
            found[name.decode()] = entries
        return found

    async def close(self, *tasks: asyncio.Task[None]) -> None:
        """Cancels tasks that use the server, waits for their end, and closes the connections.
        Raises the exception of a task that has failed."""
        pending = set(tasks)
        while pending:
            # Version 4.3 of the package loses a cancellation that comes while it looks for an old
            # reply.
            for task in pending:
                task.cancel()
            _, pending = await asyncio.wait(pending, timeout=0.1)
        with contextlib.suppress(*self.errors):
            await self.client.connection_pool.disconnect()
        for task in tasks:
            if not task.cancelled():
                task.result()


class Loss:
    """Reports when the server is lost and when it is back: each once."""

    def __init__(self, redis: Redis, report: Callable[[str], None]) -> None:
        self._redis, self._report, self._delays = redis, report, Delays(*_DELAYS)
        self.is_lost = False

    def lost(self, error: BaseException) -> float:
        """Returns the number of seconds until the next attempt."""
        if not self.is_lost:
            self.is_lost = True
            self._report(f"{text_of(self._redis, error)}; trying again")
        return self._delays.next()

    def found(self) -> None:
        self._delays.reset()
        if self.is_lost:
            self.is_lost = False
            self._report(f"{self._redis.label}: connected again")


def text_of(redis: Redis, error: BaseException) -> str:
    """Returns one line about an error. What a server replies may quote the command, and with it the
    screen: the line has only its first word if that is a code, such as NOREPLICAS."""
    name, text = type(error).__name__, str(error).strip()
    if isinstance(error, redis.local_errors) and text:
        line = "".join(filter(str.isprintable, text.splitlines()[0])).rstrip(".")
        return f"{redis.label}: {line[:_MAX_TEXT]}"
    code = _CODE.match(text.rpartition(" of pipeline caused error: ")[2])
    return f"{redis.label}: {name}" + (f": {code[1]}" if code else "")


def _label(url: str) -> str:
    try:
        parts = urlsplit(url)
        port = parts.port
    except ValueError:
        return "this address"
    host: Optional[str] = parts.hostname
    if host is None:
        return f"{parts.scheme}://{parts.path}" if parts.path and parts.scheme else "this address"
    host = f"[{host}]" if ":" in host else host
    return f"{parts.scheme}://{host}" + (f":{port}" if port is not None else "") + parts.path
