"""The properties of a screen: its size, cursor, modes and attributes."""

from __future__ import annotations

import ctypes

from ._cells import (
    FLAGS,
    Attributes,
    Color,
    Cursor,
    CursorStyle,
    MouseProtocolEncoding,
    MouseProtocolMode,
    Size,
)
from ._library import State, library
from ._object import Object


class HasState(Object):
    """An object with a screen."""

    @property
    def _state(self) -> State:
        state = State()
        self._call(library.vt100_get_state, ctypes.byref(state))
        return state

    @property
    def size(self) -> Size:
        """The number of rows and columns."""
        state = self._state
        return Size(state.rows, state.cols)

    @property
    def lines(self) -> int:
        """The number of rows."""
        return self._state.rows

    @property
    def columns(self) -> int:
        """The number of columns."""
        return self._state.cols

    @property
    def cursor(self) -> Cursor:
        """The position of the cursor, and whether it is hidden. If a wrap is pending (after a
        character was printed in the last column), the column equals the number of columns."""
        state = self._state
        return Cursor(state.cursor_row, state.cursor_col, bool(state.hide_cursor))

    @property
    def hide_cursor(self) -> bool:
        """Whether the cursor is hidden (DECTCEM reset)."""
        return bool(self._state.hide_cursor)

    @property
    def cursor_style(self) -> CursorStyle:
        """The shape of the cursor, and whether it blinks (DECSCUSR)."""
        return CursorStyle(self._state.cursor_style)

    @property
    def alternate_screen(self) -> bool:
        """Whether the alternate screen is active."""
        return bool(self._state.alternate_screen)

    @property
    def application_keypad(self) -> bool:
        """Whether the keypad is in application mode (DECKPAM)."""
        return bool(self._state.application_keypad)

    @property
    def application_cursor(self) -> bool:
        """Whether the cursor keys are in application mode (DECCKM)."""
        return bool(self._state.application_cursor)

    @property
    def bracketed_paste(self) -> bool:
        """Whether bracketed paste mode is set (DEC private mode 2004)."""
        return bool(self._state.bracketed_paste)

    @property
    def mouse_protocol_mode(self) -> MouseProtocolMode:
        """The mouse events that the program has requested."""
        return MouseProtocolMode(self._state.mouse_protocol_mode)

    @property
    def mouse_protocol_encoding(self) -> MouseProtocolEncoding:
        """The encoding of mouse events that are sent to the program."""
        return MouseProtocolEncoding(self._state.mouse_protocol_encoding)

    @property
    def attributes(self) -> Attributes:
        """The attributes with which the next character is drawn."""
        state = self._state
        return Attributes(state.fgcolor.value(), state.bgcolor.value(), *FLAGS[state.flags][:5])

    @property
    def fgcolor(self) -> Color:
        """The foreground color of the next character."""
        return self.attributes.fgcolor

    @property
    def bgcolor(self) -> Color:
        """The background color of the next character."""
        return self.attributes.bgcolor

    @property
    def bold(self) -> bool:
        """Whether the next character is bold."""
        return self.attributes.bold

    @property
    def dim(self) -> bool:
        """Whether the next character is dim."""
        return self.attributes.dim

    @property
    def italic(self) -> bool:
        """Whether the next character is italic."""
        return self.attributes.italic

    @property
    def underline(self) -> bool:
        """Whether the next character is underlined."""
        return self.attributes.underline

    @property
    def inverse(self) -> bool:
        """Whether the foreground and background colors of the next character are swapped."""
        return self.attributes.inverse

    @property
    def scrollback(self) -> int:
        """The number of rows by which the display is scrolled back."""
        return self._state.scrollback

    @property
    def scrollback_len(self) -> int:
        """The number of scrollback rows; 0 on the alternate screen."""
        return self._state.scrollback_len

    @property
    def scrollback_capacity(self) -> int:
        """The maximum number of scrollback rows; 0 on the alternate screen."""
        return self._state.scrollback_capacity
