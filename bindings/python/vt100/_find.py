"""Searching for text on a screen."""

from __future__ import annotations

import bisect
import re
from typing import Callable, Dict, List, Pattern, Sequence, Tuple, Union

from ._cells import CELL_FLAGS, CELL_LEN, CELL_SIZE, WIDE, WIDE_CONTINUATION, Position


def pattern_of(text: Union[str, Pattern[str]]) -> Pattern[str]:
    """Returns the pattern that matches a string, or the given pattern. Raises `TypeError` for other
    objects, and `ValueError` for the empty string."""
    if isinstance(text, str):
        if not text:
            raise ValueError("the text to find is empty")
        return re.compile(re.escape(text))
    if isinstance(text, re.Pattern) and isinstance(text.pattern, str):
        return text
    kind = "a pattern of bytes" if isinstance(text, re.Pattern) else type(text).__name__
    raise TypeError(f"the text to find must be a str or a compiled pattern, not {kind}")


def places_of(
    pattern: Pattern[str],
    rows: Sequence[str],
    wrapped: Sequence[bool],
    record: Callable[[int], bytes],
) -> List[Position]:
    """Returns the positions at which matches begin, in order. `rows` is the text of each row, and
    `record` returns the cells of a row as an array of `vt100_cell`."""
    contents, starts = contents_of(rows, wrapped)
    columns: Dict[int, List[int]] = {}
    places = []
    for match in pattern.finditer(contents):
        if not match.group():
            continue
        row = bisect.bisect_right(starts, match.start()) - 1
        at = match.start() - starts[row]
        if not rows[row].isascii():
            if row not in columns:
                columns[row] = columns_of(record(row))
            at = columns[row][at]
        places.append(Position(row, at))
    return places


def contents_of(rows: Sequence[str], wrapped: Sequence[bool]) -> Tuple[str, List[int]]:
    """Returns the text of `Screen.contents`, and the index in it at which each row begins."""
    pieces: List[str] = []
    starts = []
    at = 0
    for row, text in enumerate(rows):
        starts.append(at)
        pieces.append(text)
        at += len(text)
        if not wrapped[row] or row + 1 == len(rows) or not rows[row + 1]:
            pieces.append("\n")
            at += 1
    return "".join(pieces).rstrip("\n"), starts


def columns_of(record: bytes) -> List[int]:
    """Returns the column of each character of a row's text, and of the newline after it."""
    columns: List[int] = []
    width = written(record)
    for col in range(width):
        cell = record[CELL_SIZE * col : CELL_SIZE * (col + 1)]
        length = cell[CELL_LEN]
        if length:
            columns += [col] * len(cell[:length].decode())
        elif not cell[CELL_FLAGS] & WIDE_CONTINUATION:
            columns.append(col)
    return [*columns, width]


def written(record: bytes) -> int:
    """Returns the number of cells up to and including the last one that has text or belongs to a
    wide character."""
    count = len(record[CELL_LEN::CELL_SIZE].rstrip(b"\0"))
    if count and record[CELL_SIZE * (count - 1) + CELL_FLAGS] & WIDE:
        return min(count + 1, len(record) // CELL_SIZE)
    return count
