"""tmux servers for tests, whose panes display what programs or the library write."""

import os
import subprocess

import terminal

SETUP = """set -g status off
set -g default-terminal tmux-256color
set -g escape-time 0
set -g history-limit 0
set -g terminal-overrides "tmux-256color:Tc"
"""
CURSOR = "#{cursor_y} #{cursor_x} #{cursor_flag}"


class Server:
    """A tmux server with panes of one size. Its socket is in a directory."""

    def __init__(self, folder, name, rows, cols):
        setup = os.path.join(folder, f"{name}.setup")
        with open(setup, "w", encoding="ascii") as file:
            file.write(SETUP)
        self.rows, self.size = rows, ["-x", str(cols), "-y", str(rows)]
        self.command = ["tmux", "-u", "-S", os.path.join(folder, name), "-f", setup]

    def tell(self, *words):
        """Returns the output of a tmux command."""
        return subprocess.run([*self.command, *words], capture_output=True, check=True).stdout.decode()

    def begin(self, name, shell):
        """Starts a session whose pane runs a shell command."""
        self.tell("new-session", "-d", "-s", name, *self.size, shell)

    def shown(self, *names):
        """Returns, for each session, its pane's lines with their attributes, and its cursor: row, column, and whether
        it is hidden.
        """
        words = []
        for name in names:
            words += ["capture-pane", "-e", "-p", "-N", "-t", name, ";"]
            words += ["display-message", "-p", "-t", name, CURSOR, ";"]
        lines, found = self.tell(*words[:-1]).split("\n"), []
        for at in range(0, len(names) * (self.rows + 1), self.rows + 1):
            row, col, flag = lines[at + self.rows].split()
            found.append((lines[at : at + self.rows], (int(row), int(col), flag == "0")))
        return found


def cells_of(package, size, *layers):
    """Returns the rows of cells that lines of a pane display, according to the library. Each list of lines is written
    over the one before it.
    """
    pane = terminal.Terminal(package, *size)
    for lines in layers:
        pane.process(b"\x1b[m")
        for row, line in enumerate(lines):
            pane.process(f"\x1b[{row + 1}H{line}".encode())
    return pane.parser.buffer
