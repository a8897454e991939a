"""Recordings in the format of asciinema, version 2."""

from __future__ import annotations

import codecs
import contextlib
import json
import os
import time
from typing import Callable


class Recording:
    """Writes the output of the program to a file. If that fails, `report` is called with a message,
    and the recording ends there.

    Raises `OSError` if the file cannot be created: also if there is such a file already, unless
    `is_forced` is true or it is no regular file.
    """

    def __init__(
        self,
        path: str,
        rows: int,
        cols: int,
        term: str,
        report: Callable[[str], None],
        is_forced: bool = False,
    ) -> None:
        self._path, self._report = path, report
        self._start = time.monotonic()
        self._decoder = codecs.getincrementaldecoder("utf-8")("replace")
        is_device = os.path.exists(path) and not os.path.isfile(path)
        mode = "w" if is_forced or is_device else "x"
        self._file = open(path, mode, encoding="utf-8", buffering=1)
        start = int(time.time())
        env = {"TERM": term}
        head = dict(version=2, width=cols, height=rows, timestamp=start, env=env)
        self._write(head)

    def output(self, data: bytes) -> None:
        """Records output. The bytes of an unfinished character are recorded with its last byte."""
        text = self._decoder.decode(data)
        if text:
            self._write([self._now(), "o", text])

    def resize(self, rows: int, cols: int) -> None:
        """Records a new size of the terminal."""
        self._write([self._now(), "r", f"{cols}x{rows}"])

    def _now(self) -> float:
        """Returns the seconds since the beginning."""
        return round(time.monotonic() - self._start, 6)

    def close(self) -> None:
        try:
            self._file.close()
        except OSError as error:
            self._fail(error)

    def _write(self, line: object) -> None:
        if self._file.closed:
            return
        try:
            self._file.write(json.dumps(line, ensure_ascii=False) + "\n")
        except OSError as error:
            self._fail(error)

    def _fail(self, error: OSError) -> None:
        self._report(f"the recording ends: {self._path}: {error.strerror}")
        with contextlib.suppress(OSError):  # what could not be written
            self._file.close()
