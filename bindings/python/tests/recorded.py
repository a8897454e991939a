"""Reads the recorded cases (crates/test_cases/README.md), and writes a screen and its callbacks in
their format."""

import os
import re

import vt100

DATA = os.path.join(os.path.dirname(__file__), *[os.pardir] * 3, "crates", "test_cases", "data")

MOUSE_MODES = ("None", "Press", "PressRelease", "ButtonMotion", "AnyMotion")
ENCODINGS = ("Default", "Utf8", "Sgr")
STATE = ("size", "scrollback", "lengths", "cursor", "flags", "cell", "screen", "event", "scroll")
_SGR = re.compile(r"\x1b\[[0-9;]*m")


def blocks(name):
    """Yields the words of the first line of each case in a file, and its other lines."""
    with open(os.path.join(DATA, name + ".cases"), encoding="ascii") as file:
        for block in file.read()[2:].split("\n= "):
            head, *lines = block.rstrip("\n").split("\n")
            yield head.split(), lines


def unhex(word):
    return b"" if word == "." else bytes.fromhex(word)


def hexed(text):
    return text.encode().hex() or "."


def _color(color):
    if color is None:
        return "default"
    return "rgb:%d:%d:%d" % color if isinstance(color, tuple) else str(color)


def _attributes(cell):
    named = zip("bdiuv", (cell.bold, cell.dim, cell.italic, cell.underline, cell.inverse))
    return "".join(letter for letter, is_set in named if is_set) or "-"


def _cell_lines(screen, row):
    cells, col = screen.cells(row), 0
    while True:
        cell = screen.cell(row, col)
        if cell is None:
            return col
        if col < len(cells) and cells[col] != cell:
            raise AssertionError((cells[col], cell))
        if cell != vt100.Cell(""):
            kind = "w" if cell.wide else "r" if cell.wide_continuation else "n"
            colors = _color(cell.fgcolor), _color(cell.bgcolor)
            yield " ".join(
                ["cell", str(row), str(col), hexed(cell.text), kind, *colors, _attributes(cell)]
            )
        col += 1


def picture(screen):
    """Returns the lines that describe the cursor, the wrapped flags and the cells."""
    rows = range(screen.size.rows)
    flags = "".join("01"[screen.row_wrapped(row)] for row in rows)
    if screen.buffer != [screen.cells(row) for row in rows]:
        raise AssertionError(screen.buffer)
    cells = [line for row in rows for line in _cell_lines(screen, row)]
    return ["cursor %d %d" % screen.cursor, "flags " + flags, *cells]


def modes(screen):
    """Returns the line that describes the modes and the attributes of the next character."""
    flags = (
        screen.hide_cursor,
        screen.alternate_screen,
        screen.application_keypad,
        screen.application_cursor,
        screen.bracketed_paste,
    )
    words = [
        "screen",
        *("01"[flag] for flag in flags),
        MOUSE_MODES[screen.mouse_protocol_mode],
        ENCODINGS[screen.mouse_protocol_encoding],
        str(int(screen.cursor_style)),
        _color(screen.fgcolor),
        _color(screen.bgcolor),
        _attributes(screen),
    ]
    return [" ".join(words)]


def sizes(screen):
    """Returns the lines that describe the size and the scrollback."""
    lengths = []
    for row in range(screen.lines):
        col = 0
        while screen.cell(row, col) is not None:
            col += 1
        lengths.append(str(col))
    scrollback = (screen.scrollback, screen.scrollback_len, screen.scrollback_capacity)
    return [
        "size %d %d" % screen.size,
        "scrollback %d %d %d" % scrollback,
        " ".join(["lengths", *lengths]),
    ]


def plain(line):
    """Returns a line in the form in which Python reports it. For a row that scrolled off, Python
    reports the plain text without trailing blanks, while the recorded text has SGR sequences, and
    blanks for colored cells without text."""
    if not line.startswith("scroll "):
        return line
    word, text, alternate = line.split(" ")
    return " ".join([word, hexed(_SGR.sub("", unhex(text).decode()).rstrip(" ")), alternate])


def _quoted(text):
    escapes = {9: "\\t", 13: "\\r", 10: "\\n", 92: "\\\\", 34: '\\"', 39: "\\'"}
    return '"%s"' % "".join(
        escapes.get(byte) or (chr(byte) if 32 <= byte < 127 else "\\x%02x" % byte) for byte in text
    )


def _option(number):
    return "None" if number is None else "Some(%d)" % number


class Notes(vt100.Callbacks):
    """Callbacks that write a line in the format of the cases for each call."""

    def __init__(self):
        self.lines = []

    def _note(self, name, *arguments):
        self.lines.append("event %s(%s)" % (name, ", ".join(map(str, arguments))))

    def audible_bell(self, screen):
        self._note("audible_bell")

    def visual_bell(self, screen):
        self._note("visual_bell")

    def resize(self, screen, rows, cols):
        self._note("resize", rows, cols)

    def set_window_icon_name(self, screen, icon_name):
        self._note("set_window_icon_name", _quoted(icon_name))

    def set_window_title(self, screen, title):
        self._note("set_window_title", _quoted(title))

    def copy_to_clipboard(self, screen, kind, data):
        self._note("copy_to_clipboard", _quoted(kind), _quoted(data))

    def paste_from_clipboard(self, screen, kind):
        self._note("paste_from_clipboard", _quoted(kind))

    def unhandled_char(self, screen, char):
        self._note("unhandled_char", ord(char))

    def unhandled_control(self, screen, control):
        self._note("unhandled_control", control)

    def unhandled_escape(self, screen, first_intermediate, second_intermediate, final):
        options = _option(first_intermediate), _option(second_intermediate)
        self._note("unhandled_escape", *options, final)

    def unhandled_csi(self, screen, first_intermediate, second_intermediate, params, final):
        options = _option(first_intermediate), _option(second_intermediate)
        shown = "'\\\\'" if final == "\\" else "'%s'" % final
        self._note("unhandled_csi", *options, params, shown)

    def unhandled_osc(self, screen, params):
        self._note("unhandled_osc", *map(_quoted, params))

    def on_scroll(self, text, wrapped, alternate_screen):
        self.lines.append("scroll %s %d" % (hexed(text), alternate_screen))
