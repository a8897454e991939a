"""What tool_bench prints about the updates of a stream."""

import functools
import os
import shlex
import subprocess
import tempfile

# The outputs of an update, in the order in which tool_bench prints them; an older program prints only the first of them.
KINDS = ("redraw", "diff", "scrolling", "ascii", "any", "portable redraw", "portable diff", "portable scrolling")
# The outputs that contain REP.
REPEATING = ("ascii", "any")
DEFAULT_LOOK = ("-", "-", 0)
BOLD, DIM, ITALIC, UNDERLINED, INVERSE = 1, 2, 4, 8, 16


class Update:
    """The outputs of an update, and what the screen displays."""

    def __init__(self, cursor, outputs, display):
        self.cursor, self.outputs, self.printed = cursor, outputs, display

    @functools.cached_property
    def rows(self):
        """The rows of cells. A cell is a glyph ("" for a blank, None for a continuation cell) and a look: foreground,
        background and the sum of the attributes.
        """
        return [row_of(line) for line in self.printed.decode().split("\n")[:-1]]


def is_redraw(kind):
    """Returns whether outputs of this kind start from any plain terminal."""
    return kind.endswith("redraw")


def redraw_of(kind):
    """Returns the redraw with which a chain of diffs of this kind begins and is compared."""
    return "portable redraw" if kind.startswith("portable") else "redraw"


def row_of(line):
    """Returns the cells of a printed row."""
    look, row = DEFAULT_LOOK, []
    for cell in line.split("\x1f")[:-1]:
        if cell.startswith("\x1b["):
            colors, _, cell = cell[2:].partition("m")
            ink, paper, marks = colors.split(" ")
            look = (ink, paper, int(marks))
        glyph = cell if cell else None
        row.append(("" if glyph == "\0" else glyph, look))
    return row


def updates(program, size, every, path):
    """Yields the updates of the stream in a file, one after every `every` bytes."""
    words = [*shlex.split(program), "texts", *map(str, size), "0", str(every), path]
    told = subprocess.run(words, capture_output=True, check=True).stdout
    at = 0
    while at < len(told):
        end = told.index(b"\n", at)
        row, col, hidden, *lengths = told[at:end].split()
        at = end + 1
        texts = []
        for length in map(int, lengths):
            texts.append(told[at : at + length])
            at += length
        at += 1
        display = texts.pop()
        yield Update((int(row), int(col), hidden == b"true"), dict(zip(KINDS, texts)), display)


def pair_of_updates(program, size, first, second):
    """Returns the updates after two byte strings that a new screen reads, one after the other."""
    # NUL does nothing. It makes the first string the longer one, so that both are read in as many chunks.
    first = first.rjust(max(len(second), 1), b"\0")
    with tempfile.NamedTemporaryFile() as file:
        file.write(first + second)
        file.flush()
        return [*updates(program, size, len(first), file.name)][:2]


def streams(folder):
    """Yields the streams of a folder: name, path, and size of the screen (24x80 unless NAME.size has another)."""
    for entry in sorted(os.listdir(folder)):
        name, end = os.path.splitext(entry)
        if end != ".bin":
            continue
        size = (24, 80)
        if os.path.exists(f"{folder}/{name}.size"):
            with open(f"{folder}/{name}.size", encoding="ascii") as file:
                size = tuple(map(int, file.read().split()))
        yield name, f"{folder}/{entry}", size
