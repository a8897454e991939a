"""VTE, the terminal of GNOME, in a window of this process that is never shown."""

import os
import re
import time

from windows import QUERY, SECONDS, Server, cells


class Vte:
    """A terminal of VTE, which is drawn into a picture in memory."""

    repeats, tries, blanks_have_marks, stays_on_wide, keeps_orphans = True, 1, False, False, False
    # It orders the letters of bidirectional text for display, in all rows that are joined by wraps.
    reorders = True

    @staticmethod
    def is_there():
        try:
            import gi

            gi.require_version("Gtk", "3.0")
            gi.require_version("Vte", "2.91")
            gi.require_foreign("cairo")
        except (ImportError, ValueError):
            return False
        return True

    def __init__(self, rows, cols):
        os.environ["DISPLAY"] = Server.get().display
        os.environ["GDK_BACKEND"] = "x11"
        from gi.repository import GLib, Gtk, Pango, Vte as Library

        self.loop, self.size, self.answer = GLib.MainContext.default(), (rows, cols), b""
        Gtk.init([])
        self.window, self.terminal = Gtk.OffscreenWindow(), Library.Terminal()
        terminal = self.terminal
        terminal.set_size(cols, rows)
        terminal.set_scrollback_lines(0)
        terminal.set_font(Pango.FontDescription("DejaVu Sans Mono 9"))
        # Cells so large that no glyph reaches into the next one.
        terminal.set_cell_width_scale(2)
        terminal.set_cell_height_scale(2)
        terminal.set_cursor_blink_mode(Library.CursorBlinkMode.OFF)
        terminal.set_bold_is_bright(False)
        terminal.connect("commit", self.take_answer)
        self.window.add(terminal)
        self.window.show_all()
        wide, high = cols * terminal.get_char_width(), rows * terminal.get_char_height()
        terminal.set_size_request(wide + 4, high + 4)
        self.run()
        self.read(b"")

    def run(self):
        """Lets VTE do what it has to do."""
        while self.loop.iteration(False) or self.loop.pending():
            pass

    def take_answer(self, _, text, __):
        self.answer += text.encode()

    def read(self, text):
        """Writes a text, and waits until the terminal has reported the position of the cursor."""
        self.answer, until = b"", time.monotonic() + SECONDS
        self.terminal.feed(text + QUERY)
        while not self.answer.endswith(b"R"):
            self.loop.iteration(False)
            if time.monotonic() > until:
                raise TimeoutError(f"no answer: {self.answer}")
        row, col = re.search(rb"\x1b\[(\d+);(\d+)R$", self.answer).groups()
        self.place = int(row) - 1, int(col) - 1

    def cursor(self):
        return self.place

    def raw(self):
        """Returns the lines of pixels and the reported cursor."""
        import cairo

        self.run()
        terminal, (rows, cols) = self.terminal, self.size
        room = terminal.get_allocation()
        surface = cairo.ImageSurface(cairo.FORMAT_RGB24, room.width, room.height)
        terminal.draw(cairo.Context(surface))
        surface.flush()
        data, stride = bytes(surface.get_data()), surface.get_stride()
        high, wide = rows * terminal.get_char_height(), cols * terminal.get_char_width()
        padding = terminal.get_style_context().get_padding(terminal.get_state_flags())
        top, left = padding.top, padding.left * 4
        starts = range(top * stride + left, (top + high) * stride + left, stride)
        return [data[at : at + 4 * wide] for at in starts], self.place

    def display(self, raw):
        """Returns the pictures of the cells, and below them the reported cursor."""
        lines, cursor = raw
        return [*cells(lines, *self.size), [cursor]]

    def end(self):
        self.window.destroy()
