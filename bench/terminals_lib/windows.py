"""Terminals in windows of an X server without a screen (Xvfb), whose pictures are compared."""

import os
import re
import select
import shlex
import shutil
import struct
import subprocess
import tempfile
import time

FIXED = "-misc-fixed-{}-r-normal-{}-18-120-100-100-c-{}-iso10646-1"
ALACRITTY = """font: {normal: {family: DejaVu Sans Mono}, size: 9}
scrolling: {history: 0}
window: {decorations: none, padding: {x: 2, y: 2}}
cursor: {style: {shape: Block, blinking: Never}}
"""
# The fonts of st, none of whose glyphs is larger than its cells. The last one is for wide glyphs. There is no italic font,
# so that italic text has a color of its own: st takes glyphs that a font lacks from those that it has used for others, and
# the italic one lacks box drawing.
ST_FONTS = "8x13", "8x13B", "12x13ja"
X11_FONTS = "/usr/share/fonts/X11/misc"
FONTCONFIG = "<?xml version='1.0'?><fontconfig><dir>{0}/fonts</dir><cachedir>{0}/cache</cachedir></fontconfig>"
# Room for 12 windows of up to 50 rows and 160 columns, four in a row.
WIDTH, HEIGHT, PER_ROW = 6000, 3000, 4
SECONDS = 60
# Foregrounds and backgrounds with which a terminal draws everything anew, one after the other. The pixel in the window's
# corner, which belongs to no cell, tells which of them it has drawn; if the screen is reversed, it has the foreground.
COLORS = ((205, 205, 205), (1, 1, 1)), ((204, 204, 204), (0, 0, 0))
# Hides the cursor, whose color and outline depend on what is stored for blanks, and asks for its position.
QUERY = b"\x1b[?25l\x1b[6n"


class Server:
    """An Xvfb, which keeps its picture in a file."""

    server = None

    def __init__(self):
        self.folder = tempfile.mkdtemp(prefix="terminals-")
        screen = ["-screen", "0", f"{WIDTH}x{HEIGHT}x24", "-fbdir", self.folder, "-nocursor", "-nolisten", "tcp"]
        words = ["Xvfb", "-displayfd", "1", *screen]
        errors = open(f"{self.folder}/errors", "w", encoding="utf-8")
        self.process = subprocess.Popen(words, stdout=subprocess.PIPE, stderr=errors, text=True)
        self.display = f":{self.process.stdout.readline().strip()}"
        with open(f"{self.folder}/alacritty.yml", "w", encoding="ascii") as file:
            file.write(ALACRITTY)
        os.mkdir(f"{self.folder}/fonts")
        for name in ST_FONTS:
            os.symlink(f"{X11_FONTS}/{name}.pcf.gz", f"{self.folder}/fonts/{name}.pcf.gz")
        with open(f"{self.folder}/fonts.conf", "w", encoding="ascii") as file:
            file.write(FONTCONFIG.format(self.folder))
        self.picture = open(f"{self.folder}/Xvfb_screen0", "rb", buffering=0)
        head = struct.unpack(">25I", self.picture.read(100))
        self.begin, self.stride = head[0] + 12 * head[19], head[12]
        self.free = []
        self.count = 0

    @staticmethod
    def get():
        """Returns the server, which is started for the first window."""
        Server.server = Server.server or Server()
        return Server.server

    def place(self):
        """Returns the number of a place that no window has."""
        if self.free:
            return self.free.pop()
        self.count += 1
        return self.count - 1

    def lines(self, area):
        """Returns the lines of pixels of an area: x, y, width and height."""
        left, top, width, height = area
        start, size = self.begin + top * self.stride, height * self.stride
        whole = os.pread(self.picture.fileno(), size, start)
        return [whole[at + 4 * left : at + 4 * (left + width)] for at in range(0, size, self.stride)]

    def end(self):
        """Ends the server."""
        self.process.terminate()
        self.process.wait()
        self.picture.close()
        shutil.rmtree(self.folder)
        Server.server = None


def cells(lines, rows, cols):
    """Cuts a picture into cells. The border around the cells, if any, is left out."""
    high, wide = len(lines) // rows, len(lines[0]) // 4 // cols * 4
    top, left = (len(lines) - high * rows) // 2, (len(lines[0]) - wide * cols) // 8 * 4
    display = []
    for row in range(rows):
        own = lines[top + row * high : top + row * high + high]
        starts = range(left, left + wide * cols, wide)
        display.append([b"".join(line[at : at + wide] for line in own) for at in starts])
    return display


class Window:
    """A terminal in a window. It runs a command that passes on what is written to a pipe."""

    repeats, tries, program, blanks_have_marks = True, 3, None, False
    # Whether its cursor is in the first column of a wide glyph at the end of a row, and remains there after a line feed.
    stays_on_wide = False
    # Whether the first half of a wide glyph whose second half is erased still takes two columns in pictures.
    keeps_orphans = reorders = False

    @classmethod
    def is_there(cls):
        return all(map(shutil.which, ("Xvfb", "xwininfo", cls.program)))

    def __init__(self, rows, cols):
        self.server, self.size = Server.get(), (rows, cols)
        self.place = self.server.place()
        self.folder = tempfile.mkdtemp(dir=self.server.folder)
        for name in ("in", "out"):
            os.mkfifo(f"{self.folder}/{name}")
        x, y = self.place % PER_ROW * WIDTH // PER_ROW, self.place // PER_ROW * HEIGHT // 3
        own = {"DISPLAY": self.server.display, "LC_ALL": "C.UTF-8", "TERM": "xterm-256color", "HOME": self.folder}
        own |= {"LIBGL_ALWAYS_SOFTWARE": "1", "XDG_RUNTIME_DIR": self.folder}
        self.process = subprocess.Popen(
            [*self.words(x, y), "sh", "-c", self.relay()], env=os.environ | own, stdin=subprocess.DEVNULL,
            stdout=subprocess.DEVNULL, stderr=subprocess.DEVNULL,
        )
        self.into = os.open(f"{self.folder}/in", os.O_WRONLY)
        self.out = os.open(f"{self.folder}/out", os.O_RDONLY)
        self.is_drawn = False
        self.read(b"")
        self.area = self.find()

    def relay(self):
        """Returns the command that the terminal runs: it writes the window's number and its replies to pipes."""
        into, out = (shlex.quote(f"{self.folder}/{name}") for name in ("in", "out"))
        number = shlex.quote(f"{self.folder}/number")
        return f"stty raw -echo; echo $WINDOWID >{number}; cat {into} & exec cat >{out}"

    def find(self):
        """Returns the window's area, once it has stayed the same."""
        with open(f"{self.folder}/number", encoding="ascii") as file:
            number = file.read().strip()
        area = None
        for _ in range(50):
            time.sleep(0.1)
            words = ["xwininfo", "-display", self.server.display, "-id", number]
            told = subprocess.run(words, capture_output=True, check=True, text=True).stdout
            names = ("Absolute upper-left X", "Absolute upper-left Y", "Width", "Height")
            last, area = area, tuple(int(re.search(rf"{name}: +(-?\d+)", told)[1]) for name in names)
            if area == last:
                return area
        raise TimeoutError("the window has no fixed place")

    def read(self, text):
        """Writes a text, and waits until the terminal has read it and reported the position of the cursor."""
        rest = text + QUERY
        while rest:
            rest = rest[os.write(self.into, rest[:4096]) :]
        answer, until = b"", time.monotonic() + SECONDS
        while not answer.endswith(b"R"):
            if time.monotonic() > until:
                raise TimeoutError(f"no answer: {answer}")
            if select.select([self.out], [], [], 1)[0]:
                answer += os.read(self.out, 4096)
        row, col = re.search(rb"\x1b\[(\d+);(\d+)R$", answer).groups()
        self.place_of_cursor, self.is_drawn = (int(row) - 1, int(col) - 1), False

    def cursor(self):
        return self.place_of_cursor

    def draw(self):
        """Makes the terminal draw all cells anew, and waits until it has done so. It replies before it draws, and what it
        draws of a change may depend on the order of the changes.
        """
        for ink, paper in COLORS:
            self.read(b"\x1b]10;#%02x%02x%02x\x07\x1b]11;#%02x%02x%02x\x07" % (*ink, *paper))
            until = time.monotonic() + SECONDS
            while tuple(self.server.lines((*self.area[:2], 1, 1))[0][2::-1]) not in (ink, paper):
                if time.monotonic() > until:
                    raise TimeoutError("the terminal does not draw")
                time.sleep(0.005)
        lines = None
        while lines != (lines := self.server.lines(self.area)):
            time.sleep(0.01)
        self.is_drawn = True

    def raw(self):
        """Returns the lines of pixels and the reported cursor."""
        if not self.is_drawn:
            self.draw()
        return self.server.lines(self.area), self.place_of_cursor

    def display(self, raw):
        """Returns the pictures of the cells, and below them the reported cursor."""
        lines, cursor = raw
        return [*cells(lines, *self.size), [cursor]]

    def end(self):
        self.process.terminate()
        os.close(self.into)
        os.close(self.out)
        self.process.wait()
        self.server.free.append(self.place)


class Xterm(Window):
    """xterm, with bitmap fonts, which do not reach beyond their cells. It draws a glyph that its bold font lacks twice, and
    whatever follows it a pixel further to the right, so that bold is a color here.
    """

    program = "xterm"

    def words(self, x, y):
        rows, cols = self.size
        words = ["xterm", "-u8", "-b", "2", "-bw", "0", "+sb", "-sl", "0", "-geometry", f"{cols}x{rows}+{x}+{y}"]
        words += ["-fn", FIXED.format("medium", "", 90), "-fw", FIXED.format("medium", "ja", 180)]
        for resource in ("allowBoldFonts: false", "colorBDMode: true", "colorBD: orange", "cursorBlink: false"):
            words += ["-xrm", f"*{resource}"]
        return [*words, "-bg", "black", "-fg", "gray80", "-e"]


class St(Window):
    """st, the simple terminal."""

    program, stays_on_wide, keeps_orphans = "stterm", True, True

    def words(self, x, y):
        rows, cols = self.size
        fonts = ["env", f"FONTCONFIG_FILE={self.server.folder}/fonts.conf"]
        return [*fonts, "stterm", "-g", f"{cols}x{rows}+{x}+{y}", "-f", "Fixed:pixelsize=13", "-e"]


class Alacritty(Window):
    """Alacritty, on OpenGL in software."""

    program = "alacritty"

    def words(self, x, y):
        rows, cols = self.size
        settings = {"dimensions.columns": cols, "dimensions.lines": rows, "position.x": x, "position.y": y}
        words = ["alacritty", "--config-file", f"{self.server.folder}/alacritty.yml"]
        for name, value in settings.items():
            words += ["-o", f"window.{name}={value}"]
        return [*words, "-e"]
