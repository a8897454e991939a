"""The keys of terminals: the bytes that one sends, and those that a program expects instead.

Keys are named by their capabilities of terminfo: "khome", "kUP5" and so on.
"""

from __future__ import annotations

import json
import os
import re
import subprocess
import sys
from typing import Dict, Mapping, Optional, Set

#: The capabilities of a key with each modifier from 2 on: shift, alt, alt and shift, control,
#: control and shift, control and alt.
_SUFFIXES = ("", "3", "4", "5", "6", "7")

#: The modifiers of the function keys from kf13 on, in groups of twelve.
_GROUPS = (1, 2, 5, 6, 3, 4)

_CURSOR_KEYS = {"cuu1": "A", "cud1": "B", "cuf1": "C", "cub1": "D", "home": "H", "end": "F"}
_SHIFTED = {"cuu1": "UP", "cud1": "DN", "cuf1": "RIT", "cub1": "LFT", "home": "HOM", "end": "END"}
_EDIT_KEYS = {"ich1": (2, "IC"), "dch1": (3, "DC"), "pp": (5, "PRV"), "np": (6, "NXT")}
_FUNCTION_CODES = (15, 17, 18, 19, 20, 21, 23, 24)

#: The seconds that a terminfo entry may take to be read.
_PATIENCE = 10.0

_PROGRAM = """
import curses, json, sys
curses.setupterm(sys.argv[1], 1)
found = {name: curses.tigetstr(name) for name in sys.argv[2:]}
json.dump({name: text.decode("latin-1") for name, text in found.items() if text}, sys.stdout)
"""


def _own_keys() -> Dict[str, bytes]:
    """Returns the keys of caldrosk-256color, which are those of xterm in application mode."""
    keys = {"kbs": "\x7f", "kcbt": "\x1b[Z"}
    for name, final in _CURSOR_KEYS.items():
        keys["k" + name] = f"\x1bO{final}"
        for number, suffix in enumerate(_SUFFIXES, 2):
            keys[f"k{_SHIFTED[name]}{suffix}"] = f"\x1b[1;{number}{final}"
    for name, (code, shifted) in _EDIT_KEYS.items():
        keys["k" + name] = f"\x1b[{code}~"
        for number, suffix in enumerate(_SUFFIXES, 2):
            keys[f"k{shifted}{suffix}"] = f"\x1b[{code};{number}~"
    for group, modifier in enumerate(_GROUPS):
        for place in range(12):
            number = 12 * group + place + 1
            if number <= 63:
                keys[f"kf{number}"] = _function_key(place, modifier)
    return {name: text.encode() for name, text in keys.items()}


def _function_key(place: int, modifier: int) -> str:
    if place < 4:
        final = "PQRS"[place]
        return f"\x1bO{final}" if modifier == 1 else f"\x1b[1;{modifier}{final}"
    code = _FUNCTION_CODES[place - 4]
    return f"\x1b[{code}~" if modifier == 1 else f"\x1b[{code};{modifier}~"


#: What this library's terminals send for each key in application mode, which viewers send, too.
OWN_KEYS = _own_keys()

#: A cursor key in application mode, and in either mode.
_APPLICATION = re.compile(rb"\x1bO([ABCDHF])\Z")
_CURSOR_KEY = re.compile(rb"\x1b[O[]([ABCDHF])\Z")

#: The replacements of cursor keys: their form in each mode.
_NORMAL_FORM, _APPLICATION_FORM = b"\x1b[\\1", b"\x1bO\\1"


def keys_of(term: str, environment: Optional[Mapping[str, str]] = None) -> Dict[str, bytes]:
    """Returns what a terminal sends for each key in application mode, by its terminfo entry. Keys
    that the entry lacks are left out: all of them if there is no such entry."""
    environment = os.environ if environment is None else environment
    command = [sys.executable, "-c", _PROGRAM, term, *OWN_KEYS]
    try:
        # In a process of its own, since curses can read one entry only.
        found = subprocess.run(
            command,
            stdin=subprocess.DEVNULL,
            stdout=subprocess.PIPE,
            stderr=subprocess.DEVNULL,
            env=dict(environment),
            timeout=_PATIENCE,
        )
        keys: Dict[str, str] = json.loads(found.stdout)
    except (OSError, ValueError, subprocess.TimeoutExpired):
        return {}
    return {name: text.encode("latin-1") for name, text in keys.items()}


class KeyMap:
    """What a program must read for each key that a terminal sends.

    `sent` and `wanted` are what the terminal sends and the program expects for each key. For a key
    that `sent` or `wanted` lacks, that is what this library's terminals send.
    """

    def __init__(self, sent: Mapping[str, bytes], wanted: Mapping[str, bytes]) -> None:
        self._wanted: Dict[bytes, bytes] = {}
        # The last key decides what a sequence means: one that the terminal's entry has and, of
        # these, one without a modifier.
        for name in sorted(OWN_KEYS, key=lambda name: (name in sent, name.islower())):
            own = OWN_KEYS[name]
            for form in _forms(sent.get(name, own)):
                self._wanted[form] = wanted.get(name, own)

    @property
    def sequences(self) -> Mapping[bytes, bytes]:
        """The sequences of all keys that begin with ESC or are single characters."""
        return self._wanted

    def text(self, sequence: bytes, application_cursor: bool) -> bytes:
        """Returns what the program must read for the sequence of a key. A sequence that is not one
        of a key is returned as it is."""
        wanted = self._wanted.get(sequence, sequence)
        return wanted if application_cursor else _APPLICATION.sub(_NORMAL_FORM, wanted)


class ProgramKeys:
    """The keys that a program expects: `wanted`, where they differ from those of this library's
    terminals."""

    def __init__(self, wanted: Mapping[str, bytes]) -> None:
        self._map = KeyMap(OWN_KEYS, wanted)
        others = [own for own, text in self._map.sequences.items() if text not in _forms(own)]
        keys = b"|".join(re.escape(key) for key in sorted(others, key=len, reverse=True))
        paste = rb"\x1b\[200~.*?(?:\x1b\[201~|\Z)"
        self._keys = re.compile(b"(?s:%b)|%b" % (paste, keys)) if others else None

    def translated(self, data: bytes, application_cursor: bool) -> bytes:
        """Returns input with the keys that the program expects. Keys in pasted text stay."""
        if self._keys is None:
            return data
        return self._keys.sub(lambda found: self._map.text(found[0], application_cursor), data)


def _forms(sequence: bytes) -> Set[bytes]:
    """Returns the forms of a key in normal mode and in application mode."""
    return {_CURSOR_KEY.sub(form, sequence) for form in (_NORMAL_FORM, _APPLICATION_FORM)}
