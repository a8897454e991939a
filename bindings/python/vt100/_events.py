"""The event log of a parser, as described under EVENTS in vt100.h."""

from __future__ import annotations

import struct
from typing import Any, Callable, Dict, List, Optional, Sequence, Tuple

from .callbacks import Callbacks
from .capture import RowContents

#: The name of the callback for each kind of event.
NAMES = (
    "audible_bell",
    "visual_bell",
    "resize",
    "set_window_icon_name",
    "set_window_title",
    "copy_to_clipboard",
    "paste_from_clipboard",
    "unhandled_char",
    "unhandled_control",
    "unhandled_escape",
    "unhandled_csi",
    "unhandled_osc",
    "on_scroll",
)
ON_SCROLL = NAMES.index("on_scroll")

_HEAD = struct.Struct("<BIIQ")
_LENGTH = struct.Struct("<Q")
_CODE = struct.Struct("<I")

class Listeners:
    """The callbacks of a parser, which may come from several objects. Each event is passed to each
    object that overrides its callback, in order."""

    #: The argument `wanted` of vt100_parser_new: the bits of the kinds of events that are logged.
    wanted: int

    def __init__(self, callbacks: Sequence[Callbacks]) -> None:
        self._callbacks = callbacks
        self._of_kind = [_overriding(callbacks, name) for name in NAMES]
        self._of_rows = _overriding(callbacks, "on_scroll_row")
        self.wanted = sum(1 << kind for kind, found in enumerate(self._of_kind) if found)
        if self._of_rows:
            self.wanted |= 1 << ON_SCROLL

    def report(self, log: bytes, screen: Any) -> None:
        """Invokes the callbacks for the events of a log, in order."""
        methods = [
            [getattr(one, name) for one in found] for name, found in zip(NAMES, self._of_kind)
        ]
        row, rows, of_rows = 0, methods[ON_SCROLL], self._of_rows
        unpack, head = _HEAD.unpack_from, _HEAD.size
        at, end = 0, len(log)
        only = rows[0] if len(rows) == 1 and not of_rows else None  # the usual case, made fast
        while at < end:
            kind, first, second, length = unpack(log, at)
            at += head + length
            text = log[at - length : at]
            if kind == ON_SCROLL and only:
                only(text.decode(), second == 1, first == 1)
            elif kind == ON_SCROLL:
                line = text.decode()
                for method in rows:
                    method(line, second == 1, first == 1)
                if of_rows:
                    self._report_row(RowContents(screen, row, line, second == 1), first == 1)
                row += 1
            elif kind < len(NAMES):
                arguments = _ARGUMENTS[kind](first, second, text)
                for method in methods[kind]:
                    method(screen, *arguments)

    def _report_row(self, row: RowContents, alternate_screen: bool) -> None:
        try:
            for one in self._of_rows:
                one.on_scroll_row(row, alternate_screen)
        finally:
            row._end()

    def report_lost(self, screen: Any) -> None:
        """Reports that events were lost."""
        for one in self._callbacks:
            one.events_lost(screen)


def _overriding(callbacks: Sequence[Callbacks], name: str) -> List[Callbacks]:
    """Returns the objects that override a callback."""
    default = getattr(Callbacks, name)
    methods = [(one, getattr(one, name)) for one in callbacks]
    return [one for one, method in methods if getattr(method, "__func__", None) is not default]


def _byte(number: int) -> Optional[int]:
    """Returns an intermediate byte, or None for 256."""
    return None if number > 255 else number


def _parts(text: bytes) -> List[bytes]:
    """Returns the byte strings in a text, each of which is preceded by its length."""
    parts, at = [], 0
    while at < len(text):
        (length,) = _LENGTH.unpack_from(text, at)
        at += _LENGTH.size
        parts.append(text[at : at + length])
        at += length
    return parts


def _groups(text: bytes) -> List[List[int]]:
    """Returns the groups of 2-byte numbers in a text, each of which is preceded by its count."""
    groups, at = [], 0
    while at < len(text):
        (count,) = _LENGTH.unpack_from(text, at)
        at += _LENGTH.size
        groups.append(list(struct.unpack_from(f"<{count}H", text, at)))
        at += 2 * count
    return groups


def _csi(first: int, second: int, text: bytes) -> Tuple[object, ...]:
    (final,) = _CODE.unpack_from(text)
    return _byte(first), _byte(second), _groups(text[_CODE.size :]), chr(final)


#: A function for each kind of event that returns the callback's arguments from the numbers and the
#: text of a record. Rows that scroll off are reported by `Listeners.report` itself.
_ARGUMENTS: Dict[int, Callable[[int, int, bytes], Tuple[object, ...]]] = {
    0: lambda first, second, text: (),
    1: lambda first, second, text: (),
    2: lambda first, second, text: (first, second),
    3: lambda first, second, text: (text,),
    4: lambda first, second, text: (text,),
    5: lambda first, second, text: tuple(_parts(text)),
    6: lambda first, second, text: (text,),
    7: lambda first, second, text: (chr(first),),
    8: lambda first, second, text: (first,),
    9: lambda first, second, text: (_byte(first), _byte(second), text[0]),
    10: _csi,
    11: lambda first, second, text: (_parts(text),),
}
