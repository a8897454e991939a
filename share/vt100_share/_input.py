"""What is typed in a terminal, in tokens: keys, reports of the mouse, pasted and other text."""

from __future__ import annotations

import re
from typing import Iterable, Iterator, List, Match, NamedTuple, Optional

#: The kinds of tokens.
TEXT, KEY, MOUSE, PASTE = "text", "key", "mouse", "paste"

_PASTE_START, _PASTE_END = b"\x1b[200~", b"\x1b[201~"

#: Reports of the mouse in the encoding SGR. Those in other encodings are text: no part of them is
#: ESC or another control character after ESC [ M.
_MOUSE = rb"\x1b\[<[0-9]+;[0-9]+;[0-9]+[Mm]"
_UNFINISHED_MOUSE = re.compile(rb"\x1b\[<[0-9;]*\Z")

#: A character that is not the beginning of a sequence.
CHARACTER = re.compile(rb"[\x00-\x1a\x1c-\x7f]|[\xc0-\xff][\x80-\xbf]*")

_SGR = re.compile(rb"\x1b\[<([0-9]+);([0-9]+);([0-9]+)([Mm])")


class Token(NamedTuple):
    """A part of the input: its kind, and its bytes. A key is one sequence; a paste may be given in
    several tokens, which contain the brackets, too."""

    kind: str
    data: bytes


class Tokenizer:
    """Splits input into tokens. Input may be split anywhere: the beginning of a key or a report is
    kept until its end comes, or `flush` is called.

    An ESC before a key is text of its own: some terminals send it for Alt.

    `keys` are the sequences of keys, and single characters that are tokens of their own.
    """

    def __init__(self, keys: Iterable[bytes]) -> None:
        known = sorted(keys, key=len, reverse=True)
        self._prefixes = {key[:end] for key in known for end in range(1, len(key))}
        self._prefixes |= {_PASTE_START[:end] for end in range(1, len(_PASTE_START))}
        self._longest = max(map(len, self._prefixes))
        choices = b"|".join(map(re.escape, known))
        paste = re.escape(_PASTE_START)
        self._token = re.compile(
            b"(?P<paste>%b)|(?P<mouse>%b)|(?P<key>%b)" % (paste, _MOUSE, choices)
        )
        self._kept = b""
        self._is_pasting = False

    @property
    def has_kept(self) -> bool:
        """Whether the beginning of a key or a report is kept."""
        return bool(self._kept)

    def feed(self, data: bytes) -> List[Token]:
        """Returns the tokens that are complete after more input."""
        data, self._kept = self._kept + data, b""
        return [token for token in self._tokens(data) if token.data]

    def flush(self) -> List[Token]:
        """Returns what is kept, which is no key."""
        kept, self._kept = self._kept, b""
        return [Token(PASTE if self._is_pasting else TEXT, kept)] if kept else []

    def _tokens(self, data: bytes) -> Iterator[Token]:
        at = 0
        while at < len(data):
            if self._is_pasting:
                end = self._end_of_paste(data, at)
                yield Token(PASTE, data[at:end])
                at = end if self._kept == b"" else len(data)
                continue
            found = self._token.search(data, at)
            end = found.start() if found else self._end_of_text(data, at)
            yield Token(TEXT, data[at:end])
            if found is None:
                self._kept = data[end:]
                return
            yield from self._found(found)
            at = found.end()

    def _found(self, found: Match[bytes]) -> Iterator[Token]:
        if found.lastgroup == "paste":
            self._is_pasting = True
        kind = {"paste": PASTE, "mouse": MOUSE}.get(found.lastgroup or "", KEY)
        yield Token(kind, found[0])

    def _end_of_paste(self, data: bytes, at: int) -> int:
        """Returns the end of pasted text, and keeps what may be the beginning of its last
        bracket."""
        end = data.find(_PASTE_END, at)
        if end >= 0:
            self._is_pasting = False
            return end + len(_PASTE_END)
        start = max(at, len(data) - len(_PASTE_END) + 1)
        for end in range(start, len(data)):
            if _PASTE_END.startswith(data[end:]):
                self._kept = data[end:]
                return end
        return len(data)

    def _end_of_text(self, data: bytes, at: int) -> int:
        """Returns the end of the text before what may be the beginning of a key or a report."""
        for end in range(max(at, len(data) - self._longest), len(data)):
            if data[end:] in self._prefixes:
                return end
        unfinished = _UNFINISHED_MOUSE.search(data, at)
        return unfinished.start() if unfinished else len(data)


def moved_report(report: bytes, rows: int, height: int, width: int) -> Optional[bytes]:
    """Returns a report of the mouse in the encoding SGR with its row moved down by a number of
    rows, or None if it is then outside of a screen of the given size. Others are returned as they
    are."""
    found = _SGR.fullmatch(report)
    if found is None:
        return report
    code, col, row, final = found.groups()
    moved = int(row) + rows
    if not (1 <= moved <= height and 1 <= int(col) <= width):
        return None
    return b"\x1b[<%b;%b;%d%b" % (code, col, moved, final)
