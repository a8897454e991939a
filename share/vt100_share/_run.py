"""One run of the server."""

from __future__ import annotations

import argparse
import asyncio
import contextlib
import os
import signal
import sys
import traceback
from typing import Any, Callable, Dict, List, Optional, Set

from ._keys import keys_of
from ._listening import address_of
from ._local import LocalTerminal
from ._loop import ignore_children, watch_children
from ._menu import key_from
from ._publish import Publisher
from ._server import Server
from ._share import Audience, Share
from ._site import Site
from ._viewers import Tokens


class Fault(Exception):
    """A reason to end, for the user."""


def say(text: str) -> None:
    with contextlib.suppress(OSError):  # if nobody reads it
        print(f"vt100-share: {text}", file=sys.stderr, flush=True)


class Run:
    """A run of the server, from the open port to the exit status. SIGTERM, SIGINT and SIGHUP end
    it."""

    #: Makes the publisher of what is shared, if it is published.
    publish: Optional[Callable[[Audience], Publisher]] = None

    def __init__(self, options: argparse.Namespace, is_shown: bool) -> None:
        self._options, self._is_shown = options, is_shown
        self._stop = asyncio.Event()
        self._signal: Optional[int] = None
        self._reports: Optional[List[str]] = None
        self._errors: Set[str] = set()
        self._addresses: List[str] = []
        self._keys = keys_of(os.environ.get("TERM", "")) if is_shown else {}
        self._loop = asyncio.get_running_loop()
        self._loop.set_exception_handler(self._failed)
        for number in (signal.SIGTERM, signal.SIGINT, signal.SIGHUP):
            self._loop.add_signal_handler(number, self._stopped_by, number)

    def _stopped_by(self, number: int) -> None:
        self._signal = number
        self._stop.set()

    def _failed(self, loop: asyncio.AbstractEventLoop, context: Dict[str, Any]) -> None:
        """Reports where an error was, once, without what a stranger may have sent."""
        error = context.get("exception")
        places = list(traceback.extract_tb(error.__traceback__)) if error is not None else []
        last = places[-1] if places else None
        where = f" in {os.path.basename(last.filename)}, line {last.lineno}" if last else ""
        text = f"internal error: {type(error).__name__}{where}"
        if text not in self._errors:
            self._errors.add(text)
            self.report(text)

    def report(self, text: str) -> None:
        """Says something, but not before the end while this terminal shows the program."""
        if self._reports is None:
            say(text)
        else:
            self._reports.append(text)

    async def run(self, site: Site, tokens: Tokens, begin: Callable[[], Audience]) -> int:
        """Serves what `begin` returns. Returns the exit status."""
        server = Server(site, tokens, self._options.viewers)
        try:
            port = await server.start(self._options.host, self._options.port, self.report)
        except (OSError, OverflowError) as error:
            place = f"{self._options.host} port {self._options.port}"
            raise Fault(f"cannot listen on {place}: {error}") from None
        try:
            self._print_addresses(port, tokens)
            if self._is_shown and not await self._confirm():
                return 128 + (self._signal or 0)
            share = begin()
            status = await self._show(server, share)
            if status is not None:
                say(f"{share.what} has ended with status {status}")
            return 128 + (self._signal or 0) if status is None else status
        finally:
            await server.close()
            if server.turned_away:
                say(f"connections that were turned away: {server.turned_away}")

    def _print_addresses(self, port: int, tokens: Tokens) -> None:
        host = address_of(self._options.host)
        host = f"[{host}]" if ":" in host else host
        for place in self._options.public or [f"http://{host}:{port}/"]:
            self._addresses.append(f"watch: {place}#{tokens.read}")
            if tokens.write is not None:
                self._addresses.append(f"type:  {place}#{tokens.write}")
        print("\n".join(self._addresses), flush=True)

    async def _confirm(self) -> bool:
        """Waits for Enter, so that the addresses can be copied. Returns False after a signal."""
        print("Press Enter to start.", flush=True)
        pressed = asyncio.Event()
        self._loop.add_reader(0, pressed.set)
        await self._either(pressed)
        self._loop.remove_reader(0)
        if self._signal is None:
            os.read(0, 4096)
        return self._signal is None

    async def _show(self, server: Server, share: Audience) -> Optional[int]:
        """Waits for the end. Returns the status, or None after a signal."""
        local = publisher = None
        try:
            server.share = share
            if isinstance(share, Share):
                watch_children(share.check_status)
            if self._is_shown:
                self._reports = []
                follows = self._options.size is None and isinstance(share, Share)
                key = key_from(self._options.key)
                local = LocalTerminal(share, key, self._addresses, self._keys, follows)
            if self.publish is not None:
                publisher = self.publish(share)
            await self._either(share.finished)
            if local is not None:
                local.close()
                local = None
                self._say_reports()
            if publisher is not None:
                await publisher.close()
            await self._wait_for_viewers(share)
            if self._signal is None and self._options.linger > 0:
                await self._either(asyncio.Event(), self._options.linger)
        finally:
            if local is not None:
                local.close()
            self._say_reports()
            ignore_children()
            server.share = None
            share.close()
            await share.wait_closed()
        return share.status

    def _say_reports(self) -> None:
        reports, self._reports = self._reports or (), None
        for text in reports:
            say(text)

    async def _wait_for_viewers(self, share: Audience) -> None:
        """Waits until viewers have the end. Says so in a terminal, which then has been restored."""
        await self._either(share.ended, 1.0)
        if self._is_shown and self._signal is None and not share.ended.is_set():
            say("viewers are reading the last screen; Ctrl+C ends this")
        await self._either(share.ended)

    async def _either(self, event: asyncio.Event, seconds: Optional[float] = None) -> None:
        """Waits for an event, for a signal, or for some seconds."""
        waits = [self._loop.create_task(one.wait()) for one in (event, self._stop)]
        await asyncio.wait(waits, timeout=seconds, return_when=asyncio.FIRST_COMPLETED)
        for task in waits:
            task.cancel()
