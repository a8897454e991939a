"""Shows a recording in the format of asciinema, version 2 or 3."""

from __future__ import annotations

import asyncio
import json
import math
import re
from typing import Any, Callable, Iterator, NamedTuple, NoReturn, Tuple

from ._cohort import Cohort
from ._messages import MAX_COLS, MAX_ROWS
from ._share import Audience, Queries

#: The exit status after Ctrl+C, and after a line that is not an event.
_INTERRUPTED, _FAILED = 130, 1

_CTRL_C = b"\x03"

_RESIZED = re.compile(r"([0-9]{1,5})x([0-9]{1,5})")
_STATUS = re.compile(r"[0-9]{1,3}")


class BadRecording(Exception):
    """Raised for a file that is not a recording."""


class Event(NamedTuple):
    """An event: when it happened, in seconds from the beginning, its code, and its data."""

    time: float
    code: str
    data: str


class Cast:
    """A recording, which is read as it is played. Raises `OSError`, and `BadRecording`."""

    def __init__(self, path: str) -> None:
        self._path = path
        self._file = open(path, "rb")
        self._number = 0
        try:
            self._read_head()
        except BaseException:
            self._file.close()
            raise

    def _read_head(self) -> None:
        head: Any = self._next()
        self._version: Any = head.get("version") if isinstance(head, dict) else None
        term: Any = head
        if self._version == 3:
            term = head.get("term") if isinstance(head.get("term"), dict) else {}
            self.size = self._size(term.get("rows"), term.get("cols"))
        elif self._version == 2:
            self.size = self._size(head.get("height"), head.get("width"))
        else:
            raise BadRecording(f"{self._path}: not a recording by asciinema, version 2 or 3")
        title: Any = head.get("title")
        limit: Any = head.get("idle_time_limit")
        self.title = title if isinstance(title, str) else ""
        self.idle_limit = float(limit) if _is_time(limit) and limit > 0 else math.inf

    def events(self) -> Iterator[Event]:
        """Yields the events, in order."""
        now = 0.0
        while True:
            value = self._next()
            if value is None:
                return
            time, code, data = self._event(value)
            # Times are relative in version 3, and may be out of order in version 2.
            now = now + time if self._version == 3 else max(now, time)
            yield Event(now, code, data)

    def resized(self, data: str) -> Tuple[int, int]:
        """Returns the rows and columns in the data of an event `r`: COLSxROWS."""
        found = _RESIZED.fullmatch(data)
        return self._size(*map(int, found.groups()[::-1])) if found else self._fail("not a size")

    def close(self) -> None:
        self._file.close()

    def _next(self) -> Any:
        """Returns the value of the next line that is not a comment, or None after the last one. A
        last line that was cut off, as by a full disk, counts for nothing."""
        try:
            while True:
                self._number += 1
                line = self._file.readline()
                if not line:
                    return None
                if line.strip() and not line.lstrip().startswith(b"#"):
                    return json.loads(line.decode("utf-8-sig" if self._number == 1 else "utf-8"))
        except (ValueError, RecursionError):  # ValueError also stands for malformed UTF-8
            if self._number > 1 and not line.endswith(b"\n"):
                return None
            self._fail("not JSON")

    def _event(self, value: Any) -> Tuple[float, str, str]:
        if isinstance(value, list) and len(value) >= 3 and _is_time(value[0]):
            time, code, data = value[:3]
            if isinstance(code, str) and isinstance(data, str):
                return float(time), code, data
        self._fail("not an event")

    def _size(self, rows: Any, cols: Any) -> Tuple[int, int]:
        for count, limit in ((rows, MAX_ROWS), (cols, MAX_COLS)):
            if type(count) is not int or not 1 <= count <= limit:
                self._fail(f"not a size from 1x1 to {MAX_ROWS}x{MAX_COLS}")
        return rows, cols

    def _fail(self, text: str) -> NoReturn:
        raise BadRecording(f"{self._path}: line {self._number}: {text}")


def _is_time(value: Any) -> bool:
    return type(value) in (int, float) and 0 <= value < 1e9


class Playback(Audience):
    """Plays a recording to viewers, `speed` times as fast as it was recorded.

    At its end, the status is the one that was recorded, or 0. Nobody types, except that Ctrl+C ends
    it.
    """

    what = "the recording"

    def __init__(
        self, cast: Cast, speed: float, report: Callable[[str], None], scrollback: int = 0
    ) -> None:
        queries = Queries(lambda reply: None, self.set_title)
        super().__init__(Cohort(*cast.size, queries, scrollback))
        self._cast, self._speed, self._report = cast, speed, report
        self.set_title(cast.title.encode(errors="replace"))
        self._task = self._loop.create_task(self._play())

    def type(self, data: bytes) -> None:
        if _CTRL_C in data:
            self._task.cancel()
            self._finish(_INTERRUPTED)

    def close(self) -> None:
        self._task.cancel()
        self._cast.close()

    async def _play(self) -> None:
        try:
            self._finish(await self._play_events())
        except (BadRecording, OSError) as error:
            self._report(f"the recording ends: {error}")
            self._finish(_FAILED)

    async def _play_events(self) -> int:
        """Returns the status of the recorded program, or 0 if it was not recorded."""
        due, last, status = self._loop.time(), 0.0, 0
        for event in self._cast.events():
            due += min(event.time - last, self._cast.idle_limit) / self._speed
            last = event.time
            await asyncio.sleep(max(0.0, due - self._loop.time()))
            if event.code == "o":
                await self._output(event.data.encode(errors="replace"))
            elif event.code == "r":
                self.cohort.resize(*self._cast.resized(event.data))
                self._schedule()
            elif event.code == "x" and _STATUS.fullmatch(event.data):
                status = int(event.data)
        return status

    async def _output(self, data: bytes) -> None:
        length = self.cohort.chunk_len
        for at in range(0, len(data), length):
            self._parse(data[at : at + length])
            self._schedule()
            await asyncio.sleep(0)
