"""The shared program, which runs in a pseudoterminal."""

from __future__ import annotations

import functools
import os
import resource
from typing import Dict, List, Optional

from vt100 import program, terminfo

from ._keys import keys_of

#: Of the entries that most systems have, the one that fits this library's terminals best. Other
#: users, other machines and containers do not have the library's own entry.
COMMON_TERM = "tmux-256color"

#: How many files programs may open: as many as this process at first.
_FILES = resource.getrlimit(resource.RLIMIT_NOFILE)

#: The names that describe another terminal, those of tokens, and that of the password of Redis.
_DROPPED = (
    "LINES",
    "COLUMNS",
    "VT100_SHARE_READ",
    "VT100_SHARE_WRITE",
    "VT100_SHARE_RELAY",
    "REDISCLI_AUTH",
)


class Program(program.Program):
    """The shared program. TERM is `term` in its environment or, by default, `default_term()`."""

    def __init__(
        self, command: List[str], rows: int, cols: int, term: Optional[str] = None
    ) -> None:
        super().__init__(command, rows, cols, environment(term))

    def prepare(self) -> None:
        """Undoes what this process has changed for itself, too."""
        super().prepare()
        resource.setrlimit(resource.RLIMIT_NOFILE, _FILES)

    @property
    def exit_status(self) -> Optional[int]:
        """The exit status as a shell reports it, with 128 added to the number of a signal. None
        while the program runs."""
        status = self.status
        return 128 - status if status is not None and status < 0 else status


@functools.lru_cache(maxsize=None)
def default_term() -> str:
    """Returns the value of TERM for programs: `COMMON_TERM`, or this library's own entry if the
    system lacks that."""
    return COMMON_TERM if keys_of(COMMON_TERM) else terminfo.entry()[0]


def environment(term: Optional[str] = None) -> Dict[str, str]:
    """Returns the environment of the program."""
    values = {name: value for name, value in os.environ.items() if name not in _DROPPED}
    values["TERM"] = default_term() if term is None else term
    name, folder = terminfo.entry()
    if values["TERM"] == name and folder is not None:
        values["TERMINFO"] = folder
    return values
