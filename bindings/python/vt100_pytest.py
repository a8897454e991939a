"""A plugin of pytest, which finds it by its entry point: a fixture that runs programs in terminals,
and an explanation of a failed `==` of two screens. It imports `vt100` only when a test uses it."""

from __future__ import annotations

import contextlib
import sys
from typing import TYPE_CHECKING, Callable, Iterator, List, Optional

import pytest

if TYPE_CHECKING:
    from vt100.testing import Terminal


@pytest.fixture
def vt100_terminal() -> Iterator[Callable[..., Terminal]]:
    """Returns a function that runs a program in a `vt100.testing.Terminal`, whose arguments it
    takes. The terminals are closed after the test, the last one first."""
    from vt100.testing import Terminal

    with contextlib.ExitStack() as terminals:
        yield lambda *args, **kwargs: terminals.enter_context(Terminal(*args, **kwargs))


def pytest_assertrepr_compare(op: str, left: object, right: object) -> Optional[List[str]]:
    """Returns what differs between two screens."""
    screens = sys.modules.get("vt100")
    if op != "==" or screens is None:
        return None
    if not (isinstance(left, screens.Screen) and isinstance(right, screens.Screen)):
        return None
    from vt100.testing import diff

    lines: List[str] = diff(left, right).splitlines()
    return ["the screens differ:", *lines]
