"""libvterm, the terminal in neovim, vim and emacs-vterm, called in this process."""

import ctypes
import ctypes.util
import itertools

from cells import cell_of, seen_cursor
from texts import BOLD, INVERSE, ITALIC, UNDERLINED

# In a cell's first character, the mark of a continuation cell.
CONTINUATION = 0xFFFFFFFF
# The attributes and their bits. libvterm has no dim text, and underlines in more than one way.
BITS = ((BOLD, 1), (UNDERLINED, 6), (ITALIC, 8), (INVERSE, 32))


class Cell(ctypes.Structure):
    """VTermScreenCell of libvterm 0.1."""

    _fields_ = [
        ("chars", ctypes.c_uint32 * 6), ("width", ctypes.c_char), ("attrs", ctypes.c_uint32),
        ("ink", ctypes.c_uint8 * 4), ("paper", ctypes.c_uint8 * 4),
    ]


class Position(ctypes.Structure):
    """VTermPos."""

    _fields_ = [("row", ctypes.c_int), ("col", ctypes.c_int)]


def library():
    """Returns libvterm with the types of the functions that are called."""
    found, pointer, number = ctypes.CDLL("libvterm.so.0"), ctypes.c_void_p, ctypes.c_int
    types = {
        "vterm_new": (pointer, number, number),
        "vterm_free": (None, pointer),
        "vterm_set_utf8": (None, pointer, number),
        "vterm_obtain_screen": (pointer, pointer),
        "vterm_obtain_state": (pointer, pointer),
        "vterm_screen_enable_altscreen": (None, pointer, number),
        "vterm_screen_reset": (None, pointer, number),
        "vterm_input_write": (ctypes.c_size_t, pointer, ctypes.c_char_p, ctypes.c_size_t),
        "vterm_screen_get_cell": (number, pointer, Position, ctypes.POINTER(Cell)),
        "vterm_state_get_cursorpos": (None, pointer, ctypes.POINTER(Position)),
    }
    for name, (result, *words) in types.items():
        function = getattr(found, name)
        function.restype, function.argtypes = result, words
    return found


class Libvterm:
    """A terminal of libvterm. REP in the last columns sets a pending wrap one column too early."""

    # It fills erased cells with all attributes, as kitty does. While a wrap is pending after a wide glyph, its cursor is
    # in the glyph's first column, and remains there after a line feed.
    tries, repeats, blanks_have_marks, stays_on_wide, keeps_orphans = 1, False, True, True, False
    reorders = False

    @staticmethod
    def is_there():
        return ctypes.util.find_library("vterm") is not None

    def __init__(self, rows, cols):
        self.calls, self.size = library(), (rows, cols)
        self.terminal = self.calls.vterm_new(rows, cols)
        self.calls.vterm_set_utf8(self.terminal, 1)
        self.screen = self.calls.vterm_obtain_screen(self.terminal)
        self.state = self.calls.vterm_obtain_state(self.terminal)
        self.calls.vterm_screen_enable_altscreen(self.screen, 1)
        self.calls.vterm_screen_reset(self.screen, 1)

    def read(self, text):
        self.calls.vterm_input_write(self.terminal, text, len(text))

    def cursor(self):
        place = Position()
        self.calls.vterm_state_get_cursorpos(self.state, ctypes.byref(place))
        return place.row, place.col

    def color(self, value):
        """Returns a color as tool_bench writes it."""
        kind, *parts = value
        if kind & 6:
            return "-"
        return str(parts[0]) if kind & 1 else ",".join(map(str, parts))

    def row(self, at):
        """Returns the cells of a row."""
        row, found = [], Cell()
        while len(row) < self.size[1]:
            self.calls.vterm_screen_get_cell(self.screen, Position(at, len(row)), ctypes.byref(found))
            codes = [] if found.chars[0] == CONTINUATION else itertools.takewhile(bool, found.chars)
            marks = sum(mark for mark, bits in BITS if found.attrs & bits)
            row += [cell_of("".join(map(chr, codes)), self.color(found.ink), self.color(found.paper), marks)]
            row += [None] * (ord(found.width) == 2)
        return row[: self.size[1]]

    def raw(self):
        """Returns the rows of cells, followed by a row that consists of the cursor, whose visibility libvterm only reports
        to its caller.
        """
        return [*map(self.row, range(self.size[0])), [seen_cursor(*self.cursor(), True, self.size[1])]]

    def display(self, raw):
        return raw

    def end(self):
        self.calls.vterm_free(self.terminal)
