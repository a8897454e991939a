"""The rows of a screen that have changed."""

from __future__ import annotations

import typing
from typing import TYPE_CHECKING, Any, Iterable, Iterator, List, Optional

if TYPE_CHECKING:
    from .screen import Screen


class Dirty(typing.AbstractSet[int]):
    """The set of the displayed rows that have changed since `clear` was last called. All rows are
    in it before the first call to `clear`, and after a resize."""

    def __init__(self, screen: Screen) -> None:
        self._screen = screen

    def clear(self) -> None:
        """Empties the set."""
        self.take()

    def take(self) -> typing.Set[int]:
        """Returns the rows in the set, and empties it."""
        screen = self._screen
        with screen._lock:
            seen, screen._seen = screen._seen, screen._rows_whole()
            return _changed(seen, screen._seen)

    __call__ = take

    def _now(self) -> typing.Set[int]:
        screen = self._screen
        with screen._lock:
            return _changed(screen._seen, screen._rows_whole())

    def __contains__(self, row: object) -> bool:
        return row in self._now()

    def __iter__(self) -> Iterator[int]:
        return iter(sorted(self._now()))

    def __len__(self) -> int:
        return len(self._now())

    @classmethod
    def _from_iterable(cls, rows: Iterable[Any]) -> typing.AbstractSet[Any]:
        return set(rows)

    def __repr__(self) -> str:
        return repr(self._now())


def _changed(before: Optional[List[bytes]], now: List[bytes]) -> typing.Set[int]:
    """Returns the rows that differ, or all rows if the size differs."""
    if before is None or len(before) != len(now):
        return set(range(len(now)))
    return {row for row, cells in enumerate(now) if cells != before[row]}
