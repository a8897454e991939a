"""Runs a program in a terminal of its own, shows that terminal, and replies to the program's queries.

    python3 replies.py vim

Keys are passed to the program, and its screen is drawn by means of diffs, in the size that the
outer terminal has at the start. At the end, the final screen is printed. If standard input or
output is not a terminal, only the final screen is printed. Without a program, the queries are sent
to a terminal, and its replies are tested.
"""

import contextlib
import os
import select
import shutil
import sys
import termios
import tty

import vt100
from vt100.testing import Terminal


class Log(vt100.Callbacks):
    """Callbacks beside the replies: the clipboard that the program sets."""

    copied = b""

    def copy_to_clipboard(self, screen, kind, data):
        self.copied = data


def ask():
    """Sends queries to a terminal, and tests the replies."""
    asked = (
        (b"\x1b[c", b"\x1b[?1;2c"),
        (b"\x1b[>c", b"\x1b[>0;0;0c"),
        (b"\x1b[5n", b"\x1b[0n"),
        (b"\x1b[3;7H\x1b[6n", b"\x1b[3;7R"),
        (b"\x1b]11;?\x07", b"\x1b]11;rgb:0000/0000/0000\x1b\\"),
    )
    for query, reply in asked:
        due = []
        vt100.Parser(24, 80, callbacks=vt100.Replies(due.append)).process(query)
        assert due == [reply], (query, due)
    print(f"{len(asked)} replies")


@contextlib.contextmanager
def raw(file):
    """Lets the outer terminal pass each key on at once, without an echo."""
    settings = termios.tcgetattr(file)
    tty.setraw(file)
    try:
        yield
    finally:
        termios.tcsetattr(file, termios.TCSAFLUSH, settings)


def draw(text):
    sys.stdout.write(text)
    sys.stdout.flush()


def show(terminal):
    """Shows a terminal in the outer one until its program ends."""
    shown = blank = vt100.Parser(*terminal.screen.size).save()
    draw("\x1b[m" + blank.state_formatted())
    has_output = True
    while has_output:
        readable, _, _ = select.select([sys.stdin, terminal], [], [])
        if sys.stdin in readable:
            terminal.send(os.read(sys.stdin.fileno(), 256))
        if terminal in readable:
            has_output = terminal.read()
        screen = terminal.screen.save()
        draw(screen.state_diff(shown))
        shown = screen
    draw(blank.state_diff(shown))


def main():
    command = sys.argv[1:]
    if not command:
        ask()
        return
    is_shown = sys.stdin.isatty() and sys.stdout.isatty()
    cols, rows = shutil.get_terminal_size() if is_shown else (80, 24)
    log = Log()
    with Terminal(command, rows, cols, callbacks=log, replies=True) as terminal:
        if is_shown:
            with raw(sys.stdin.fileno()):
                show(terminal)
        terminal.wait_end()
        print(terminal.screen.contents())
        if log.copied:
            print(f"copied: {log.copied.decode()}")


if __name__ == "__main__":
    main()
