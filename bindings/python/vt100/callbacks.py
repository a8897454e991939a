"""Callbacks of a parser."""

from __future__ import annotations

import difflib
from typing import TYPE_CHECKING, Any, List, Optional

if TYPE_CHECKING:
    from .capture import RowContents
    from .screen import Screen


class Callbacks:
    """Callbacks for what a program asks of its terminal besides drawing, for unsupported sequences,
    and for rows that scroll off and are not kept.

    Derive a class and override the methods that you need; other events are not even recorded. Pass
    an instance to the parser:

        class Bells(vt100.Callbacks):
            count = 0

            def audible_bell(self, screen):
                self.count += 1

        parser = vt100.Parser(24, 80, callbacks=Bells())

    A method whose name resembles that of a callback is an error, since it would never be invoked;
    a helper method can have a name that begins with an underscore.

    Callbacks are invoked during `process`, in order, after the byte that completes the sequence and
    before the next byte is parsed. Only `on_scroll` and `on_scroll_row`, which are not passed the
    screen, may be invoked later, before `process` returns, unless other callbacks besides
    `events_lost` are overridden. `screen` is the parser. A callback may read and change it, but
    must not call `process`. An exception raised by a callback propagates from `process`; the bytes
    after those that were parsed are not parsed, and no further callbacks are invoked.

    Strings that a program sends are `bytes`, because they need not be UTF-8.

    The events of a byte are recorded until the byte has been processed. If an allocation fails, or
    the events of one byte take more than about 512 KiB (such as many rows that scroll off at once),
    `events_lost` is invoked instead of the callbacks of the remaining events.
    """

    def __init_subclass__(cls, **arguments: Any) -> None:
        super().__init_subclass__(**arguments)
        names = [name for name in vars(Callbacks) if not name.startswith("_")]
        for name, value in vars(cls).items():
            if name.startswith("_") or name in names or not callable(value):
                continue
            meant = _OF_PYTE.get(name) or difflib.get_close_matches(name, names, 1, 0.75)
            if meant:
                raise TypeError(
                    f"{cls.__name__}.{name} is not a callback, but resembles {meant[0]!r}"
                )

    def audible_bell(self, screen: Screen) -> None:
        """Handles an audible bell (BEL)."""

    def visual_bell(self, screen: Screen) -> None:
        """Handles a visual bell (ESC g)."""

    def resize(self, screen: Screen, rows: int, cols: int) -> None:
        """Handles a request to resize the terminal (CSI 8 ; ROWS ; COLS t). Either number may be
        0."""

    def set_window_icon_name(self, screen: Screen, icon_name: bytes) -> None:
        """Handles a new icon name of the window (OSC 0 and 1)."""

    def set_window_title(self, screen: Screen, title: bytes) -> None:
        """Handles a new title of the window (OSC 0 and 2)."""

    def copy_to_clipboard(self, screen: Screen, kind: bytes, data: bytes) -> None:
        """Handles base64 data for the clipboards that `kind` names (OSC 52)."""

    def paste_from_clipboard(self, screen: Screen, kind: bytes) -> None:
        """Handles a request for the contents of the clipboards that `kind` names (OSC 52 with
        ?)."""

    def unhandled_char(self, screen: Screen, char: str) -> None:
        """Handles a character that is not drawn: U+FFFD, which stands for malformed UTF-8, or a C1
        control character."""

    def unhandled_control(self, screen: Screen, control: int) -> None:
        """Handles an unsupported control character."""

    def unhandled_escape(
        self,
        screen: Screen,
        first_intermediate: Optional[int],
        second_intermediate: Optional[int],
        final: int,
    ) -> None:
        """Handles an unsupported escape sequence, given by its intermediate bytes and its final
        byte."""

    def unhandled_csi(
        self,
        screen: Screen,
        first_intermediate: Optional[int],
        second_intermediate: Optional[int],
        params: List[List[int]],
        final: str,
    ) -> None:
        """Handles an unsupported control sequence, given by its private marker and intermediate
        bytes, its parameters with their subparameters, and its final character."""

    def unhandled_osc(self, screen: Screen, params: List[bytes]) -> None:
        """Handles an unsupported operating system command, split at its semicolons."""

    def on_scroll(self, text: str, wrapped: bool, alternate_screen: bool) -> None:
        """Handles a row that scrolled off the top of the screen, or out of scrollback, and is not
        kept, or a row of scrollback that ED 3 (CSI 3 J) erased.

        `text` is the plain text of the row. `wrapped` is true if the text continues on the next
        row, and `alternate_screen` is true if the row was on the alternate screen.
        `Parser.set_size` may also invoke this callback.
        """

    def events_lost(self, screen: Screen) -> None:
        """Handles a loss of events. Invoked after the callbacks of the events that preceded the
        lost ones."""

    def on_scroll_row(self, row: RowContents, alternate_screen: bool) -> None:
        """Handles the same rows as `on_scroll`, for callers that need the colors and attributes:
        `row.formatted_basic(capture)` returns the row with SGR sequences. `row` can be used only
        until this callback returns."""


#: The callbacks that correspond to methods of a screen of pyte.
_OF_PYTE = {
    "bell": ["audible_bell"],
    "set_title": ["set_window_title"],
    "set_icon_name": ["set_window_icon_name"],
}
