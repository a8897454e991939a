"""States of a terminal in which a redraw cannot be right, and what TERMINAL_SETUP makes of them."""

import os
import runpy

from causes import differences
from follow import RESET, Terminals
from texts import pair_of_updates

PACKAGE = f"{os.path.dirname(__file__)}/../../bindings/python/vt100"
SIZE = (8, 40)
# Ends an unfinished sequence, and selects UTF-8, which a reset need not do.
END = b"\x18\x1b\\\x1b%G"
# A screen with a wrapped row, letters that become lines in the DEC character set, and wide characters; and changes whose
# scrolling diff uses HT, LF, ICH and DCH.
FIRST = (
    "The quick brown fox jumps over the lazy dog, and then it goes on to the next row, twice: qxjklm.\r\n"
    "\x1b[44mblue\x1b[m tail\r\n\x1b[31mred\x1b[m漢字 end\r\nfoo#{}bar"
).encode()
SECOND = (
    b"\x1b[2;3HXYZ\x1b[1;1H\x1b[2P\x1b[3;1H\x1b[@Q\x1b[5;25Ht\x1b[6;17HUV\x1b[7;9Hz\x1b[7;33Hend\x1b[8;16Hq"
)
STATES = {
    "automatic wrap off": "\x1b[?7l",
    "line drawing in G0": "\x1b(0",
    "line drawing in G1, SO": "\x1b)0\x0e",
    "line drawing in G2, LS2": "\x1b*0\x1bn",
    "British characters in G0": "\x1b(A",
    "insert mode": "\x1b[4h",
    "left and right margins": "\x1b[?69h\x1b[11;30s",
    "reverse screen": "\x1b[?5h",
    "scroll region, origin mode": "\x1b[3;6r\x1b[?6h",
    "no tab stops": "\x1b[3g",
    "tab stops at every fifth column": "\x1b[3g\r" + 7 * "\x1b[5C\x1bH",
    "new line mode": "\x1b[20h",
    "reverse wraparound": "\x1b[?45h",
    "not UTF-8": "\x1b%@",
    "attributes": "\x1b[1;2;3;4;5;7;8;9;31;44m",
    "alternate screen": "\x1b[?1049h",
    "unfinished control sequence": "\x1b[12;3",
    "unfinished operating system command": "\x1b]2;title",
    "unfinished character": b"\xe6\xbc",
    "synchronized output": "\x1b[?2026h",
    "German characters": "\x1b[?42h\x1b(K",
    "explicit order from right to left": "\x1b[8l\x1b[2 k",
}

# The states that TERMINAL_SETUP is known to leave: libvterm shows U+FFFD for an unfinished character before the next text.
KNOWN = {"libvterm": ["unfinished character"]}


def is_right_after(terminals, before, outputs):
    """Returns whether a terminal that has read `before` displays the redraw and then the diff as a new terminal does."""
    redraw, diff = outputs
    new, used = terminals.get("new"), terminals.get("used")
    for terminal, first in ((new, b""), (used, b"text\r\n" + before)):
        terminal.read(END + RESET + first + redraw)
    is_right = not differences(new, used)
    for terminal in (new, used):
        terminal.read(diff)
    return is_right and not differences(new, used)


def wrong_states(make, program):
    """Returns the states from which a redraw and a diff are wrong, and those that remain wrong after the setup."""
    setup = runpy.run_path(f"{PACKAGE}/_terminal.py")["TERMINAL_SETUP"].encode()
    first, second = pair_of_updates(program, SIZE, FIRST, SECOND)
    outputs = first.outputs["redraw"], second.outputs["scrolling"]
    terminals = Terminals(make, SIZE)
    found = []
    for after in b"", setup:
        wrong = []
        for name, state in STATES.items():
            state = state if isinstance(state, bytes) else state.encode()
            if not is_right_after(terminals, state + after, outputs):
                wrong.append(name)
                # A reset does not end each state, such as xterm's national characters.
                terminals.end()
                terminals = Terminals(make, SIZE)
        found.append(wrong)
    terminals.end()
    return found
