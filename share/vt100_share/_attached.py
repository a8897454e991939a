"""The messages of a server as a viewer in a terminal reads them."""

from __future__ import annotations

from typing import Optional

from vt100 import Parser

from . import _messages as messages

#: How many bytes are parsed before what was typed is read.
CHUNK = 4096


class SharedScreen:
    """What a server has sent: the screen, and what is known about it. `parser` is None before the
    first screen."""

    def __init__(self) -> None:
        self.parser: Optional[Parser] = None
        self.begin()

    def begin(self) -> None:
        """Begins a connection. The screen stays until there is another one."""
        self.has_begun = self.may_write = self.is_stale = False
        self.counts = 0, 0
        self.status: Optional[int] = None
        self.read_len = self.taken_len = 0

    def text_of(self, message: bytes) -> bytes:
        """Takes a message. Returns the text in it that the parser must read, by `process`. Raises
        `Nonsense` for a message that no server sends."""
        kind, body = message[:1], message[1:]
        if kind in (b"F", b"D", b"H"):
            self.read_len += len(message)
        if kind == b"F":
            rows, cols, text = messages.screen_of(body)
            self.parser = Parser(rows, cols)
            return text
        if kind == b"D":
            if self.parser is None:
                raise messages.Nonsense("an update before a screen")
            return body
        self._take_note(kind, body)
        return b""

    def _take_note(self, kind: bytes, body: bytes) -> None:
        if kind == b"W":
            self.has_begun, self.may_write = True, messages.flag_of(body)
        elif kind == b"S":
            self.is_stale = messages.flag_of(body)
        elif kind == b"V":
            self.counts = messages.counts_of(body)
        elif kind == b"I":
            self.taken_len = messages.count_of(body)
        elif kind == b"X":
            self.status = messages.status_of(body)

    def process(self, text: bytes) -> None:
        """Parses at most `CHUNK` bytes of what `text_of` has returned."""
        assert self.parser is not None
        self.parser.process(text)
        if self.parser.pending_len > messages.MAX_COMMAND:
            self.parser.process(messages.CANCEL)
