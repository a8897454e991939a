"""The conditions for which `vt100.testing` waits."""

from __future__ import annotations

import linecache
import os
import re
from typing import Callable, Optional, Pattern, Union

from ._recent import Recent
from .screen import Screen

#: A string that the screen must contain, a pattern of which it must contain a match, or a function
#: of the screen that must return true.
Predicate = Union[str, Pattern[str], Callable[[Screen], object]]


def condition(wanted: Predicate, recent: Optional[Recent] = None) -> Callable[[Screen], bool]:
    """Returns the function of the screen that must return true. With `recent`, text must have been
    written since the last input, at least in part. Raises `TypeError` for other objects."""
    if isinstance(wanted, str):
        return _containing(re.compile(re.escape(wanted)), recent)
    if isinstance(wanted, re.Pattern):
        return _containing(wanted, recent)
    if not callable(wanted):
        kind = type(wanted).__name__
        raise TypeError(f"what to wait for is a str, a compiled pattern or a function, not {kind}")
    function = wanted
    return lambda screen: bool(function(screen))


def _containing(pattern: Pattern[str], recent: Optional[Recent]) -> Callable[[Screen], bool]:
    def holds(screen: Screen) -> bool:
        is_displayed = pattern.search(screen.contents()) is not None
        return is_displayed and (recent is None or recent.has_match(pattern, screen))

    return holds


def name_of(wanted: Predicate) -> str:
    """Returns how a message names what was awaited: for a function written in Python, where it is;
    for a lambda, its line of source, too."""
    if isinstance(wanted, str):
        return repr(wanted)
    if isinstance(wanted, re.Pattern):
        return f"a match of {wanted.pattern!r}"
    code = getattr(wanted, "__code__", None)
    name: str = getattr(wanted, "__name__", repr(wanted))
    if code is None:
        return name
    place = f"{name} ({os.path.basename(code.co_filename)}, line {code.co_firstlineno})"
    source = linecache.getline(code.co_filename, code.co_firstlineno).strip()
    return f"{place}, {source}" if name == "<lambda>" and source else place
