"""A translator of character sets, for programs that draw boxes with them."""

from __future__ import annotations

import ctypes

from ._library import check, library
from ._object import BytesLike, Object, as_bytes


class Charsets(Object):
    """A translator that replaces what a program prints in DEC Special Graphics, the character set
    for line drawing, by Unicode characters in UTF-8.

    A `Parser` has no character sets, so boxes that are drawn with them appear as letters such as
    `lqqqk`. A translator reads the output of a program before the parser does. It follows the
    designations of G0 to G3, SO, SI, the single and locking shifts, DECSC and DECRC, the modes 47,
    1047, 1048 and 1049, DECSTR and RIS. All other sets are read as ASCII, and all other bytes stay
    as they are, including the designations.
    """

    def __init__(self) -> None:
        check(library.vt100_charsets_new(self._at))

    def translate(self, data: BytesLike) -> bytes:
        """Returns the translation of bytes, which is at most three times as long. Input may be
        split anywhere; no byte is held back. If memory is short, nothing has been read."""
        given = as_bytes(data)
        room = ctypes.create_string_buffer(3 * len(given))
        length = ctypes.c_size_t()
        self._call(
            library.vt100_charsets_translate,
            given,
            len(given),
            room,
            len(room),
            ctypes.byref(length),
        )
        return ctypes.string_at(room, length.value)

    def __repr__(self) -> str:
        return f"<vt100.Charsets{' closed' if self._is_closed else ''}>"
