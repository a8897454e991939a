"""Sequences for real terminals, before the first redraw and after the last one."""

#: Sequences to write once to a real terminal before its first redraw.
#:
#: A redraw takes it for granted that a terminal is as after a reset. These sequences end an
#: unfinished string and a synchronized update, and select UTF-8, ASCII in G0 to G3 instead of
#: national characters, the full scroll region without left and right margins, replace mode,
#: automatic wrap, line feeds that keep the column, a normal screen (not reverse video),
#: bidirectional text that the terminal orders, from left to right, and tab stops at every eighth
#: column of the first 320. They move the cursor, and draw nothing. Write them again when the
#: terminal's width has changed. They are no redraw, and nothing is proved about them.
TERMINAL_SETUP = (
    "\x1b\\\x1b[?2026l\x1b[?42l\x1b%G\x1b(B\x1b)B\x1b*B\x1b+B\x0f\x1b[?69l\x1b[r\x1b[?6l"
    "\x1b[4l\x1b[20l\x1b[?7h\x1b[?45l\x1b[?5l\x1b[8h\x1b[0 k\x1b[3g\r" + 40 * "\x1b[8C\x1bH" + "\r"
)

#: Sequences to write to a real terminal when no more output follows. They undo what redraws and
#: `input_mode_formatted` can leave set: they select default attributes, show the cursor, and reset
#: the input modes (keypad, cursor keys, bracketed paste, mouse) and the cursor style.
TERMINAL_RESTORE = (
    "\x1b[m\x1b[?25h\x1b>\x1b[?1l\x1b[?2004l\x1b[?9l\x1b[?1000l\x1b[?1002l\x1b[?1003l"
    "\x1b[?1005l\x1b[?1006l\x1b[0 q"
)
