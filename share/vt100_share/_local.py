"""The terminal in which vt100-share was started, which shows the program as well."""

from __future__ import annotations

from typing import Callable, List, Mapping, Optional, Sequence

from ._display import Display, Typing
from ._menu import Command, Menu
from ._share import Audience


class LocalTerminal(Typing):
    """Shows the versions of a screen on the terminal of standard input and output, and sends what
    is typed there to the program.

    `key` opens a line that says who watches; its commands show `addresses` again, and take typing
    back from viewers. `keys` are the keys of the terminal. If `follows` is true, the program's
    terminal gets the size of this terminal.
    """

    def __init__(
        self,
        share: Audience,
        key: Optional[bytes],
        addresses: Sequence[str],
        keys: Mapping[str, bytes],
        follows: bool,
    ) -> None:
        self._share, self._addresses, self._follows = share, addresses, follows
        self._has_writers = any(address.startswith("type:") for address in addresses)
        commands = {"a": Command(lambda: "addresses", lambda: list(self._addresses))}
        if self._has_writers:
            commands["t"] = Command(self._name_of_typing, self._switch_typing)
        self._menu = Menu(key, self._status, commands)
        self._display = Display(
            lambda: share.cohort.screen, self, self._menu, keys, has_frame=not follows
        )
        self.show: Callable[[], None] = self._display.show
        share.listen(self.show)

    def _status(self) -> str:
        """Returns who watches."""
        viewers, writers = self._share.notes.counts
        count = f"{viewers} viewer{'' if viewers == 1 else 's'}"
        return f"{count}, {writers} may type" if self._has_writers else count

    def _name_of_typing(self) -> str:
        return "take typing back" if self._share.is_typing_allowed else "let viewers type"

    def _switch_typing(self) -> List[str]:
        self._share.allow_typing(not self._share.is_typing_allowed)
        return []

    def type(self, data: bytes) -> None:
        self._share.type(data)

    @property
    def has_room(self) -> bool:
        return self._share.has_input_room

    def resize(self, rows: int, cols: int) -> bool:
        return self._follows and self._share.resize(rows, cols)

    def close(self) -> None:
        """Restores the terminal."""
        self._display.close()
