"""A terminal for tests in this directory: a parser of the Python package that records its callbacks as notes.

A note is the name of a callback, and its arguments in one line.
"""

import os
import sys

TOP = os.path.join(os.path.dirname(os.path.abspath(__file__)), "..")
BOLD, DIM, ITALIC, UNDERLINE, INVERSE = 1, 2, 4, 8, 16


def load(prefix):
    """Returns the Python package over the library that bindings/build installed under `prefix`."""
    os.environ["VT100_LIBRARY"] = os.path.join(prefix, "lib", "libvt100.so")
    sys.path.insert(0, os.path.join(TOP, "bindings", "python"))
    import vt100

    return vt100


def noting(package, notes):
    """Returns callbacks that append a note for each call, except those for rows that scroll off."""
    left_out = ("on_scroll", "on_scroll_row", "events_lost")
    names = [it for it in vars(package.Callbacks) if not it.startswith("_") and it not in left_out]

    def noted(name):
        return lambda self, screen, *arguments: notes.append((name, describe(name, arguments)))

    return type("Noting", (package.Callbacks,), {name: noted(name) for name in names})()


class Terminal:
    """A parser that records each callback, except those for rows that scroll off."""

    def __init__(self, package, rows, cols, scrollback=0):
        self.notes = []
        self.parser = package.Parser(rows, cols, scrollback, noting(package, self.notes))
        self.process = self.parser.process

    @property
    def unhandled(self):
        """The notes of sequences and characters that the terminal does not support."""
        return [note for note in self.notes if note[0].startswith("unhandled")]

    @property
    def state(self):
        """The properties of the screen other than its cells, cursor position and scrollback."""
        names = "alternate_screen application_keypad application_cursor hide_cursor bracketed_paste"
        names += " mouse_protocol_mode mouse_protocol_encoding cursor_style fgcolor bgcolor"
        found = {name: getattr(self.parser, name) for name in names.split()}
        return {**found, "flags": flags(self.parser.attributes), "size": self.parser.size}

    def rows(self):
        """The text of each row, without blanks at its end."""
        return ["".join(cell.display for cell in row).rstrip() for row in self.parser.buffer]


def flags(attributes):
    """Returns the sum of the attributes that are set."""
    names = {"bold": BOLD, "dim": DIM, "italic": ITALIC, "underline": UNDERLINE, "inverse": INVERSE}
    return sum(bit for name, bit in names.items() if getattr(attributes, name))


def looks(cell):
    """Returns the foreground, background and flags of a cell."""
    return cell.fgcolor, cell.bgcolor, flags(cell)


def describe(name, arguments):
    """Returns the arguments of a callback in one line; those of a sequence as they were written."""
    if name == "unhandled_csi":
        *marks, groups, final = arguments
        marks = "".join(chr(byte) for byte in marks if byte is not None)
        private = marks if marks[:1] in "<=>?" else ""
        numbers = ";".join(":".join(map(str, group)) for group in groups)
        return f"CSI {private}{numbers}{marks[len(private):]}{final}"
    if name == "unhandled_escape":
        return "ESC " + "".join(chr(byte) for byte in arguments if byte is not None)
    if name == "unhandled_osc":
        return "OSC " + ";".join(part.decode("latin-1") for part in arguments[0])
    if name in ("unhandled_char", "unhandled_control"):
        return f"{ord(arguments[0]) if name == 'unhandled_char' else arguments[0]:02X}"
    if name == "resize":
        return "{} {}".format(*arguments)
    return ";".join(part.decode("latin-1") for part in arguments)
