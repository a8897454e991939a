"""The processes that a program leaves in its session."""

from __future__ import annotations

import contextlib
import os
import signal
import time
from typing import Dict, List, Optional

_STATE, _SESSION, _START = 0, 3, 19  # positions after the name in /proc/PID/stat


def members(session: int) -> Dict[int, str]:
    """Returns the processes of a session other than its leader, and when each was started. Only
    Linux has the files that say so; elsewhere there are none."""
    found = {}
    with contextlib.suppress(OSError):
        for name in os.listdir("/proc"):
            fields = _fields(int(name)) if name.isdigit() and int(name) != session else None
            if fields is not None and fields[_SESSION] == str(session):
                found[int(name)] = fields[_START]
    return found


def end(processes: Dict[int, str], deadline: float) -> None:
    """Waits for processes to end, and kills those that have not ended by the deadline."""
    while any(map(_is_running, processes, processes.values())):
        if time.monotonic() >= deadline:
            break
        time.sleep(0.01)
    for process, start in processes.items():
        if _is_running(process, start):
            with contextlib.suppress(OSError):
                os.kill(process, signal.SIGKILL)


def _is_running(process: int, start: str) -> bool:
    fields = _fields(process)
    return fields is not None and fields[_START] == start and fields[_STATE] not in "ZX"


def _fields(process: int) -> Optional[List[str]]:
    """Returns what the system says about a process, or None if there is no such process. The name
    of its program, which may contain spaces, is left out."""
    try:
        with open(f"/proc/{process}/stat", encoding="utf-8", errors="replace") as file:
            return file.read().rpartition(")")[2].split()
    except OSError:
        return None
