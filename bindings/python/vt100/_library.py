"""The functions of the C library, as declared in vt100.h."""

from __future__ import annotations

import ctypes
import operator
import os
from typing import Any, Dict, List, SupportsIndex, Tuple

from ._cells import Color, color_of

#: The file name of the shared object, which is next to this module or where the system finds it;
#: used if VT100_LIBRARY is not set.
SONAME = "libvt100.so.1"

MAX_U16 = 0xFFFF
MAX_U64 = 0xFFFFFFFFFFFFFFFF
MAX_SIZE = ctypes.c_size_t(-1).value

OUT_OF_MEMORY = 1
BAD_ARGUMENT = 3
_STATUSES = {
    2: "the parser or mirror ran out of memory in an earlier call and processes no more bytes",
    4: "the object is of a different kind",
    5: "the screens have different sizes",
    6: "the object is closed",
    7: "the object is initialized already",
    8: "the mirror has no viewer number left",
}


class Error(Exception):
    """An error that is neither a failed allocation (`MemoryError`) nor an invalid argument
    (`ValueError`)."""


class Handle(ctypes.Structure):
    """`vt100_handle`: one machine word that refers to an object of the library."""

    _fields_ = [("at", ctypes.c_void_p)]


class RawColor(ctypes.Structure):
    """The C struct `vt100_color`."""

    _fields_ = [(name, ctypes.c_uint8) for name in ("kind", "red", "green", "blue")]
    kind: int
    red: int
    green: int
    blue: int

    def value(self) -> Color:
        """Returns the color."""
        return color_of(self.kind, self.red, self.green, self.blue)


class State(ctypes.Structure):
    """`vt100_state`: the properties of a screen other than its cells."""

    _fields_ = (
        [(name, ctypes.c_uint16) for name in ("rows", "cols", "cursor_row", "cursor_col")]
        + [
            (name, ctypes.c_uint8)
            for name in (
                "alternate_screen",
                "application_keypad",
                "application_cursor",
                "hide_cursor",
                "bracketed_paste",
                "mouse_protocol_mode",
                "mouse_protocol_encoding",
                "cursor_style",
                "flags",
            )
        ]
        + [("reserved", ctypes.c_uint8 * 3), ("fgcolor", RawColor), ("bgcolor", RawColor)]
        + [
            (name, ctypes.c_size_t)
            for name in ("scrollback", "scrollback_len", "scrollback_capacity")
        ]
    )
    rows: int
    cols: int
    cursor_row: int
    cursor_col: int
    alternate_screen: int
    application_keypad: int
    application_cursor: int
    hide_cursor: int
    bracketed_paste: int
    mouse_protocol_mode: int
    mouse_protocol_encoding: int
    cursor_style: int
    flags: int
    fgcolor: RawColor
    bgcolor: RawColor
    scrollback: int
    scrollback_len: int
    scrollback_capacity: int


def _arguments() -> Dict[str, List[Any]]:
    """Returns the argument types of each function that returns a status."""
    handle, size = ctypes.POINTER(Handle), ctypes.c_size_t
    u8, u16, u64 = ctypes.c_uint8, ctypes.c_uint16, ctypes.c_uint64
    length, data = ctypes.POINTER(size), ctypes.c_void_p
    flag, side = ctypes.POINTER(u8), ctypes.POINTER(u16)
    rows = [u16, u16, length, size, length]
    arguments: Dict[str, List[Any]] = {
        "parser_new": [u16, u16, size, u16, handle],
        "mirror_new": [u16, u16, size, handle],
        "save": [handle, handle],
        "shown_copy": [handle, handle],
        "swap": [handle, handle],
        "process": [handle, data, size],
        "process_until": [handle, data, size, length],
        "process_until_full": [handle, data, size, length],
        "pending_len": [handle, length],
        "is_ground": [handle, flag],
        "scrollback_erasures": [handle, ctypes.POINTER(u64)],
        "set_size": [handle, u16, u16],
        "screen_set_size": [handle, u16, u16],
        "set_scrollback": [handle, size],
        "clear_scrollback": [handle],
        "get_state": [handle, ctypes.POINTER(State)],
        "get_cell": [handle, u16, u16, data],
        "get_cells": [handle, u16, data, size],
        "get_all_cells": [handle, data, size],
        "row_wrapped": [handle, u16, flag],
        "get_row_cells": [handle, size, data, size, length, flag],
        "row_contents": [handle, size, length],
        "is_steady": [handle, flag],
        "contents_between": [handle, u16, u16, u16, u16, length],
        "rows": [handle, *rows],
        "rows_formatted": [handle, *rows],
        "rows_diff": [handle, handle, *rows],
        "events": [handle, length, flag],
        "clear_events": [handle],
        "join": [handle, ctypes.POINTER(u64)],
        "leave": [handle, u64],
        "mirror_is_current": [handle, u64, flag],
        "capture_new": [handle],
        "charsets_new": [handle],
        "charsets_translate": [handle, data, size, data, size, length],
        "capture_screen": [handle, handle, length],
        "capture_row": [handle, size, handle, length],
        "next_row": [data, size, u16, size, length, length],
    }
    for name in (
        "contents",
        "contents_formatted_basic",
        "contents_formatted_reset",
        "cursor_state_formatted",
        "attributes_formatted",
        "input_mode_formatted",
    ):
        arguments[name] = [handle, length]
    for name in ("contents_diff", "contents_diff_scrolling", "state_diff", "input_mode_diff"):
        arguments[name] = [handle, handle, length]
    for name in ("contents_formatted_with", "state_formatted_with"):
        arguments[name] = [handle, ctypes.c_uint8, length]
    for name in ("contents_diff_with", "state_diff_with"):
        arguments[name] = [handle, handle, ctypes.c_uint8, length]
    for name in ("update", "update_scrolling"):
        arguments[name] = [handle, u64, side, side, length]
    arguments["update_with"] = [handle, u64, ctypes.c_uint8, side, side, length]
    return arguments


def _default() -> str:
    """Returns the path of the shared object next to this module, or only the object's name if there
    is none."""
    beside = os.path.join(os.path.dirname(os.path.abspath(__file__)), SONAME)
    return beside if os.path.exists(beside) else SONAME


def _open() -> ctypes.CDLL:
    """Opens the shared object at VT100_LIBRARY, or the default one if that is not set."""
    named = os.environ.get("VT100_LIBRARY")
    try:
        return ctypes.CDLL(named or _default())
    except OSError as error:
        if named:
            raise ImportError(f"VT100_LIBRARY does not name a library that can be loaded: {error}") from error
        raise ImportError(
            f"the library {SONAME} was not found ({error}): install it by bindings/build PREFIX,"
            " and set VT100_LIBRARY to PREFIX/lib/libvt100.so"
        ) from error


def _load() -> ctypes.CDLL:
    """Opens the library and declares its functions."""
    opened = _open()
    handle, size = ctypes.POINTER(Handle), ctypes.c_size_t
    try:
        for name, types in _arguments().items():
            function = getattr(opened, "vt100_" + name)
            function.argtypes, function.restype = types, ctypes.c_uint8
        for name in ("copy", "copy_events"):
            function = getattr(opened, "vt100_" + name)
            function.argtypes, function.restype = [handle, ctypes.c_void_p, size], size
        opened.vt100_free.argtypes, opened.vt100_free.restype = [handle], None
        opened.vt100_version.argtypes, opened.vt100_version.restype = [], ctypes.c_char_p
    except AttributeError as error:
        raise ImportError(
            f"the library is of another version than this package ({error}):"
            " VT100_LIBRARY names the one to load"
        ) from error
    return opened


library = _load()

#: The version of the C interface of the loaded library, such as "1.3".
library_version: str = library.vt100_version().decode()


def check(status: int, wrong: str = "") -> None:
    """Raises the exception for a status other than VT100_OK. `wrong` says which argument is invalid
    if the status is VT100_BAD_ARGUMENT."""
    if status == 0:
        return
    if status == OUT_OF_MEMORY:
        raise MemoryError
    if status == BAD_ARGUMENT:
        raise ValueError(wrong or "an argument is invalid")
    raise Error(_STATUSES.get(status, f"status {status}"))


def in_range(name: str, value: SupportsIndex, low: int, high: int) -> int:
    """Returns `value` as an int, so that ctypes doesn't truncate it.

    Raises `ValueError` if it is less than `low` or greater than `high`, and `TypeError` if it is
    not an integer.
    """
    number = operator.index(value)
    if not low <= number <= high:
        raise ValueError(f"{name} must be from {low} to {high}, not {number}")
    return number


def size_in_range(rows: SupportsIndex, cols: SupportsIndex) -> Tuple[int, int]:
    """Returns a size as ints. Raises `ValueError` if either number is not between 1 and 65535."""
    return in_range("rows", rows, 1, MAX_U16), in_range("cols", cols, 1, MAX_U16)
