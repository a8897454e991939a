"""The event loop, and how long to wait."""

from __future__ import annotations

import asyncio
import importlib
import random
import signal
import sys
from typing import Any, Callable, Coroutine, TypeVar

_T = TypeVar("_T")


class Delays:
    """How long to wait before each new attempt after errors, in seconds: about twice as long each
    time, from `first` to `longest` at most, and at random, so that not all who were disconnected at
    a time return at a time."""

    def __init__(self, first: float, longest: float) -> None:
        self._first, self._delay, self._longest = first, first, longest

    def next(self) -> float:
        delay, self._delay = self._delay, min(2 * self._delay, self._longest)
        return delay * random.uniform(0.5, 1.0)

    def reset(self) -> None:
        """Begins anew, after success."""
        self._delay = self._first


def run(main: Coroutine[Any, Any, _T]) -> _T:
    """Runs a coroutine in an event loop. It is that of the package `uvloop` if it is installed,
    which needs less time and memory for a viewer, and otherwise that of asyncio."""
    try:
        uvloop: Any = importlib.import_module("uvloop")
    except ImportError:
        return asyncio.run(main)
    if sys.version_info >= (3, 11):
        with asyncio.Runner(loop_factory=uvloop.new_event_loop) as runner:
            return runner.run(main)
    uvloop.install()
    return asyncio.run(main)


def watch_children(callback: Callable[[], object]) -> None:
    """Has a function called in the running event loop whenever a child process has ended, until
    `ignore_children` is called."""
    loop = asyncio.get_running_loop()
    # Not with loop.add_signal_handler, which uvloop does not allow for this signal.
    signal.signal(signal.SIGCHLD, lambda _number, _frame: loop.call_soon_threadsafe(callback))


def ignore_children() -> None:
    """Undoes what `watch_children` does."""
    signal.signal(signal.SIGCHLD, signal.SIG_DFL)
