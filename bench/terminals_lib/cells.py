"""Terminals without a window, of which each cell can be read: kitty's Screen, and the core of xterm.js in node."""

import json
import os
import subprocess
import sys

from texts import BOLD, DIM, INVERSE, ITALIC, UNDERLINED

KITTY = "/usr/lib/kitty"
XTERM_JS = "/usr/share/nodejs/xterm/lib/Terminal.js"


def cell_of(glyph, ink, paper, marks):
    """Returns what can be seen of a cell. The foreground and most attributes of a blank cannot."""
    if glyph and glyph != " ":
        return glyph, ink, paper, marks
    seen = marks & (UNDERLINED | INVERSE)
    return " ", ink if seen else "-", paper, seen


def seen_cursor(row, col, is_visible, cols):
    """Returns what can be seen of the cursor: while a wrap is pending, it is in the last column."""
    return row, min(col, cols - 1), is_visible


class Callbacks:
    """Callbacks of kitty's Screen, which do nothing."""

    def __getattr__(self, name):
        return lambda *words, **named: None


class Kitty:
    """A Screen of kitty, in this process."""

    tries, repeats = 1, True
    # It fills erased cells with all attributes, where others use only the background.
    blanks_have_marks, stays_on_wide, keeps_orphans, reorders = True, False, False, False

    @staticmethod
    def is_there():
        return os.path.isdir(KITTY)

    def __init__(self, rows, cols):
        if KITTY not in sys.path:
            sys.path.append(KITTY)
        from kitty.fast_data_types import Screen, parse_bytes, set_options
        from kitty.options.types import defaults

        set_options(defaults)
        self.parse, self.cols = parse_bytes, cols
        self.screen = Screen(Callbacks(), rows, cols, 0)

    def read(self, text):
        self.parse(self.screen, text)

    def cursor(self):
        return self.screen.cursor.y, self.screen.cursor.x

    def color(self, value):
        """Returns a color as tool_bench writes it."""
        if value & 0xFF == 1:
            return str(value >> 8 & 0xFF)
        return ",".join(str(value >> at & 0xFF) for at in (24, 16, 8)) if value & 0xFF else "-"

    def row(self, line):
        """Returns the cells of a line."""
        row, col = [], 0
        while col < self.cols:
            look = line.cursor_from(col, 0)
            glyph = "" if line[col][:1] in ("\0", "\t") else line[col]
            pairs = ((BOLD, look.bold), (DIM, look.dim), (ITALIC, look.italic))
            pairs += ((UNDERLINED, look.decoration), (INVERSE, look.reverse))
            marks = sum(mark for mark, is_set in pairs if is_set)
            row += [cell_of(glyph, self.color(look.fg), self.color(look.bg), marks)]
            row += [None] * (line.width(col) == 2)
            col = len(row)
        return row[: self.cols]

    def raw(self):
        """Returns the rows of cells, followed by a row that consists of the cursor. Cells are read one by one, since kitty's
        text of a line leaves out the attributes of blanks at its end.
        """
        rows = [self.row(self.screen.line(at)) for at in range(self.screen.lines)]
        return [*rows, [seen_cursor(*self.cursor(), self.screen.cursor_visible, self.cols)]]

    def display(self, raw):
        return raw

    def end(self):
        pass


class XtermJs:
    """A terminal of xterm.js, in a process of node."""

    # REP of version 3.8.1 does not move the cursor.
    tries, repeats, blanks_have_marks, stays_on_wide, keeps_orphans = 1, False, False, False, False
    reorders, node, count = False, None, 0

    @staticmethod
    def is_there():
        return os.path.exists(XTERM_JS)

    def __init__(self, rows, cols):
        if XtermJs.node is None:
            script = f"{os.path.dirname(__file__)}/xterm_js.js"
            pipe = subprocess.PIPE
            XtermJs.node = subprocess.Popen(["node", script, XTERM_JS], stdin=pipe, stdout=pipe, text=True, bufsize=1)
        self.number = XtermJs.count
        XtermJs.count += 1
        self.tell("new", rows, cols)

    def tell(self, *words):
        """Sends a line to node, and returns its answer, a line of JSON."""
        print(self.number, *words, file=XtermJs.node.stdin, flush=True)
        return XtermJs.node.stdout.readline()

    def read(self, text):
        self.tell("read", text.hex())

    def cursor(self):
        return tuple(json.loads(self.tell("cursor")))

    def cell(self, width, glyph, packed):
        """Returns a cell from its width, its glyph and its packed attributes."""
        if width == 0:
            return None
        flags, ink, paper = packed >> 18, packed >> 9 & 511, packed & 511
        marks = flags & BOLD | (flags & 32) >> 4 | (flags & 64) >> 4 | (flags & 2) << 2 | (flags & 8) << 1
        return cell_of(glyph, *("-" if color > 255 else str(color) for color in (ink, paper)), marks)

    def raw(self):
        """Returns what is the same only if what is displayed is the same."""
        return self.tell("display")

    def display(self, raw):
        """Returns the rows of cells, and below them the cursor."""
        rows, cursor = json.loads(raw)
        return [*([self.cell(*cell) for cell in row] for row in rows), [seen_cursor(*cursor, len(rows[0]))]]

    def end(self):
        self.tell("end")
