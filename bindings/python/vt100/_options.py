"""The options of redraws and diffs."""

from __future__ import annotations

import enum

_PORTABLE = 8


class Repeat(enum.Enum):
    """The one-column characters that a diff may repeat with REP (ECMA-48, 8.3.103).

    `NEVER`: none, so the diff contains no REP. `ASCII`: printable ASCII characters, the only ones
    that tmux 3.3a repeats. `ANY`: all.
    """

    NEVER = 0
    ASCII = 4
    ANY = 2


def redraw_options(portable: bool) -> int:
    """Returns the bits that the library expects for the options of a redraw."""
    return _PORTABLE if portable else 0


def diff_options(scroll: bool, repeat: Repeat, portable: bool = False) -> int:
    """Returns the bits that the library expects for the options of a diff. Raises `TypeError` if
    `repeat` is not a `Repeat`."""
    if not isinstance(repeat, Repeat):
        raise TypeError(f"repeat must be a Repeat, not {repeat!r}")
    return int(bool(scroll)) | repeat.value | redraw_options(portable)
