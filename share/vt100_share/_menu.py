"""A line at the bottom of a terminal, which a key opens, and whose commands are single keys."""

from __future__ import annotations

from typing import Callable, Dict, List, NamedTuple, Optional, Sequence

_CTRL = "ctrl-"

#: The characters that cannot open the line with Ctrl: those of Tab, Enter, line feed and Esc.
_OTHER_KEYS = "IJM["


class BadKey(Exception):
    """Raised for a key that cannot open the line."""


def key_from(text: str) -> Optional[bytes]:
    """Returns the key that an option names: "ctrl-" and a letter or one of @ \\ ] ^ _, or None for
    "none". Raises `BadKey`."""
    name = text.lower()
    if name == "none":
        return None
    letter = name[len(_CTRL) :].upper()
    is_one = len(letter) == 1 and "@" <= letter <= "_" and letter not in _OTHER_KEYS
    if not name.startswith(_CTRL) or not is_one:
        raise BadKey(
            "a key is none, or ctrl- and one of @ \\ ] ^ _ or a letter other than i, j and m"
        )
    return bytes([ord(letter) & 0x1F])


def name_of(key: bytes) -> str:
    return "Ctrl+" + chr(key[0] | 0x40)


class Command(NamedTuple):
    """What a key in the line does: its name, and a function that returns lines to show next, or
    None if the line closes."""

    name: Callable[[], str]
    run: Callable[[], Optional[List[str]]]


class Menu:
    """The line. `key` opens it, and goes to the program if it is typed again. `status` returns what
    the line says first, and `commands` are the others by their keys. While the line is closed,
    there is another line if `notice` returns its text."""

    def __init__(
        self,
        key: Optional[bytes],
        status: Callable[[], str],
        commands: Dict[str, Command],
        notice: Callable[[], Optional[str]] = lambda: None,
    ) -> None:
        self.key = key
        self._status, self._commands, self._notice = status, commands, notice
        self._lines: Sequence[str] = ()
        self.is_open = False

    @property
    def lines(self) -> List[str]:
        """The lines to show."""
        if not self.is_open or self.key is None:
            notice = self._notice()
            return [] if notice is None else [notice]
        names = [f"{key}: {command.name()}" for key, command in self._commands.items()]
        again = f"{name_of(self.key)}: send {name_of(self.key)}"
        parts = [text.replace(" ", "\u00a0") for text in (self._status(), *names, again)]
        return [*self._lines, " | ".join(parts)]

    def open(self) -> None:
        self.is_open = True

    def press(self, data: bytes) -> bytes:
        """Takes what was typed while the line is open. Returns what goes to the program."""
        if data == self.key:
            self._close()
            return data
        command = self._commands.get(data.decode("latin-1").lower())
        lines = command.run() if command is not None else None
        if lines is None:
            self._close()
        else:
            self._lines = lines
        return b""

    def _close(self) -> None:
        self.is_open, self._lines = False, ()
