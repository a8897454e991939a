"""Replies to the queries that programs send to their terminal."""

from __future__ import annotations

from typing import TYPE_CHECKING, Callable, Dict, List, Optional, Tuple

from .callbacks import Callbacks

if TYPE_CHECKING:
    from .screen import Screen

_Rgb = Tuple[int, int, int]


class Replies(Callbacks):
    """Callbacks that reply to the queries of a program: device attributes (DA1 and DA2), status
    (DSR 5), the position of the cursor (DSR 6), the default colors (OSC 10 and 11), and the
    clipboard (OSC 52), which contains what the program has copied.

    `send` is called with each reply, which must reach the program as if it were typed. The replies
    claim to be a VT100, and no more than is supported.

        due = []
        parser = vt100.Parser(24, 80, callbacks=vt100.Replies(due.append))
        parser.process(b"\\x1b[c")
        assert due == [b"\\x1b[?1;2c"]
    """

    def __init__(
        self,
        send: Callable[[bytes], object],
        foreground: _Rgb = (0xD0, 0xD0, 0xD0),
        background: _Rgb = (0, 0, 0),
    ) -> None:
        self._send = send
        self._colors = {b"10": foreground, b"11": background}
        self._copied: Dict[bytes, bytes] = {}

    def unhandled_csi(
        self,
        screen: Screen,
        first_intermediate: Optional[int],
        second_intermediate: Optional[int],
        params: List[List[int]],
        final: str,
    ) -> None:
        if second_intermediate is not None or params not in ([], [[0]], [[5]], [[6]]):
            return
        marker = "" if first_intermediate is None else chr(first_intermediate)
        number = params[0][0] if params else 0
        if (marker, final, number) == ("", "n", 6):
            self._send(_cursor_report(screen))
        reply = _FIXED.get((marker, final, number))
        if reply is not None:
            self._send(reply)

    def unhandled_osc(self, screen: Screen, params: List[bytes]) -> None:
        if len(params) == 2 and params[0] in self._colors and params[1] == b"?":
            color = "/".join("%02x%02x" % (part, part) for part in self._colors[params[0]])
            self._send(b"\x1b]%b;rgb:%b\x1b\\" % (params[0], color.encode()))

    def copy_to_clipboard(self, screen: Screen, kind: bytes, data: bytes) -> None:
        self._copied[kind] = data

    def paste_from_clipboard(self, screen: Screen, kind: bytes) -> None:
        if kind in self._copied:
            self._send(b"\x1b]52;%b;%b\x1b\\" % (kind, self._copied[kind]))


#: The replies that are always the same, by private marker, final character and parameter.
_FIXED = {
    ("", "c", 0): b"\x1b[?1;2c",
    (">", "c", 0): b"\x1b[>0;0;0c",
    ("", "n", 5): b"\x1b[0n",
}


def _cursor_report(screen: Screen) -> bytes:
    """Returns the reply to DSR 6, with rows and columns counted from 1. If a wrap is pending, the
    last column is reported."""
    row, col = screen.cursor
    return b"\x1b[%d;%dR" % (row + 1, min(col + 1, screen.columns))
