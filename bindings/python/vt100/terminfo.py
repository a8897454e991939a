"""The terminfo entry for programs that run in a terminal of this library."""

from __future__ import annotations

import atexit
import functools
import os
import shutil
import subprocess
import tempfile
from typing import Iterator, Optional, Tuple

#: The name of the entry. Programs that look for "256color" in a name find it.
NAME = "caldrosk-256color"

#: The entry that most systems have and that fits best.
_FALLBACK = "screen-256color"

_PACKAGE = os.path.dirname(os.path.abspath(__file__))

#: The directories of the system's entries.
_SYSTEM = ("/etc/terminfo", "/lib/terminfo", "/usr/lib/terminfo", "/usr/share/terminfo")


@functools.lru_cache(maxsize=None)
def entry() -> Tuple[str, Optional[str]]:
    """Returns the values of TERM and TERMINFO, which is None if the system has the entry.

    The compiled entry is in this package or, in the archive for all languages, in its `share`. In a
    checkout, `tic` compiles it into a directory that is removed at exit. If there is no entry and
    no `tic`, TERM is screen-256color."""
    for folder in _beside():
        if _has_entry(folder):
            return NAME, folder
    if any(_has_entry(folder) for folder in _SYSTEM):
        return NAME, None
    compiled = _compile()
    return (NAME, compiled) if compiled else (_FALLBACK, None)


def _beside() -> Iterator[str]:
    yield os.path.join(_PACKAGE, "terminfo")
    yield os.path.join(_PACKAGE, "..", "..", "share", "terminfo")


def _has_entry(folder: str) -> bool:
    # The directory of an entry is its first letter or, on some systems, the letter's code.
    return any(os.path.exists(os.path.join(folder, first, NAME)) for first in ("c", "63"))


def _compile() -> Optional[str]:
    """Compiles the entry of a checkout. Returns the directory, or None if that is not possible."""
    source = os.path.join(_PACKAGE, "..", "..", "..", "terminfo", "caldrosk.ti")
    if not os.path.exists(source) or shutil.which("tic") is None:
        return None
    folder = tempfile.mkdtemp(prefix="vt100-terminfo-")
    atexit.register(shutil.rmtree, folder, ignore_errors=True)
    done = subprocess.run(["tic", "-x", "-o", folder, source], stderr=subprocess.DEVNULL)
    return folder if done.returncode == 0 and _has_entry(folder) else None
