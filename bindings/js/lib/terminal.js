// What is written to a real terminal before and after redraws.

/** Sequences that set tab stops at every eighth column of the first 320. */
const TAB_STOPS = "\x1b[8C\x1bH".repeat(40);

export const TERMINAL_SETUP = "\x1b\\\x1b[?2026l\x1b[?42l\x1b%G\x1b(B\x1b)B\x1b*B\x1b+B\x0f\x1b[?69l\x1b[r\x1b[?6l"
  + `\x1b[4l\x1b[20l\x1b[?7h\x1b[?45l\x1b[?5l\x1b[8h\x1b[0 k\x1b[3g\r${TAB_STOPS}\r`;

export const TERMINAL_RESTORE = "\x1b[m\x1b[?25h\x1b>\x1b[?1l\x1b[?2004l\x1b[?9l\x1b[?1000l\x1b[?1002l\x1b[?1003l"
  + "\x1b[?1005l\x1b[?1006l\x1b[0 q";
