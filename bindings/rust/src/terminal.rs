//! Sequences for real terminals, before the first redraw and after the last one.

/// Eight times: move right by eight columns, and set a tab stop (HTS).
macro_rules! eight_tab_stops {
    () => {
        concat!(
            "\x1b[8C\x1bH\x1b[8C\x1bH\x1b[8C\x1bH\x1b[8C\x1bH",
            "\x1b[8C\x1bH\x1b[8C\x1bH\x1b[8C\x1bH\x1b[8C\x1bH",
        )
    };
}

/// Sequences to write once to a real terminal before its first redraw. Not in the crate `vt100`.
///
/// A redraw takes it for granted that a terminal is as after a reset. These sequences end an
/// unfinished string and a synchronized update, and select UTF-8, ASCII in G0 to G3 instead of
/// national characters, the full scroll region without left and right margins, replace mode,
/// automatic wrap, line feeds that keep the column, a normal screen (not reverse video),
/// bidirectional text that the terminal orders, from left to right, and tab stops at every eighth
/// column of the first 320. They move the cursor, and draw nothing. Write them again when the
/// terminal's width has changed.
///
/// They are no redraw, and nothing is proved about them. A [`Parser`](crate::Parser) reports some
/// of them as unhandled.
pub const TERMINAL_SETUP: &str = concat!(
    "\x1b\\\x1b[?2026l\x1b[?42l\x1b%G\x1b(B\x1b)B\x1b*B\x1b+B\x0f\x1b[?69l\x1b[r\x1b[?6l",
    "\x1b[4l\x1b[20l\x1b[?7h\x1b[?45l\x1b[?5l\x1b[8h\x1b[0 k\x1b[3g\r",
    eight_tab_stops!(),
    eight_tab_stops!(),
    eight_tab_stops!(),
    eight_tab_stops!(),
    eight_tab_stops!(),
    "\r",
);

/// Sequences to write to a real terminal when no more output follows. Not in the crate `vt100`.
///
/// They undo what redraws and [`input_mode_formatted`](crate::Screen::input_mode_formatted) can
/// leave set: they select default attributes, show the cursor, and reset the input modes (keypad,
/// cursor keys, bracketed paste, mouse) and the cursor style. They leave the text and the cursor's
/// position as they are.
pub const TERMINAL_RESTORE: &str = concat!(
    "\x1b[m\x1b[?25h\x1b>\x1b[?1l\x1b[?2004l\x1b[?9l\x1b[?1000l\x1b[?1002l\x1b[?1003l",
    "\x1b[?1005l\x1b[?1006l\x1b[0 q",
);
