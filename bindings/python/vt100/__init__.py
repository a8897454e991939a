"""A headless terminal emulator: it parses what a program writes to its terminal, and maintains the
screen that a person would see.

    import vt100

    parser = vt100.Parser(24, 80)
    parser.process(b"this text is \\x1b[31mRED\\x1b[m")
    assert parser.contents() == "this text is RED"
    assert parser.cell(0, 13).fgcolor == 1
    assert parser.find("RED") == [(0, 13)]

The shared object is loaded from the path in the environment variable VT100_LIBRARY. If that is not
set, libvt100.so.1 is loaded from the directory of this package or, if it is not there, from where
the system finds it. `library_version` is the version of its C interface. Rows and columns are
0-based.

Invalid arguments, such as integers out of range, raise `ValueError`; failed allocations raise
`MemoryError`; other failures in the library raise `Error`. The methods of one object may be called
from several threads; calls wait for each other, and a fork waits for the calls of other threads.
`vt100.testing` runs programs in a terminal.
"""

from . import capture
from ._cells import (
    Attributes,
    Cell,
    Color,
    Cursor,
    CursorStyle,
    MouseProtocolEncoding,
    MouseProtocolMode,
    Position,
    Size,
    color_name,
)
from ._dirty import Dirty
from ._history import History
from ._library import Error, library_version
from ._object import BytesLike
from ._options import Repeat
from ._pictures import Theme
from ._terminal import TERMINAL_RESTORE, TERMINAL_SETUP
from ._version import __version__
from .callbacks import Callbacks
from .capture import Capture, RowContents
from .charsets import Charsets
from .mirror import BytesUpdate, Mirror, Update
from .parser import Parser
from .replies import Replies
from .screen import Screen

__all__ = [
    "Attributes",
    "BytesLike",
    "BytesUpdate",
    "Callbacks",
    "Capture",
    "Cell",
    "Charsets",
    "Color",
    "Cursor",
    "CursorStyle",
    "Dirty",
    "Error",
    "History",
    "Mirror",
    "MouseProtocolEncoding",
    "MouseProtocolMode",
    "Parser",
    "Position",
    "Repeat",
    "Replies",
    "RowContents",
    "Screen",
    "Size",
    "TERMINAL_RESTORE",
    "TERMINAL_SETUP",
    "Theme",
    "Update",
    "__version__",
    "capture",
    "color_name",
    "library_version",
]

# Makes representations and tracebacks show the module that users import the classes from.
for _public in list(globals().values()):
    if isinstance(_public, type):
        _public.__module__ = __name__
del _public
