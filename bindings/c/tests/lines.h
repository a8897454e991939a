/*
 * The lines with which case files describe a screen and its callbacks (crates/test_cases/README.md).
 */
#ifndef LINES_H
#define LINES_H

#include <vt100.h>

/* A string that grows. */
struct text {
    char *bytes;
    size_t len, room;
};

/* Adds the output that printf would print. */
void add(struct text *text, const char *format, ...);

/* Adds bytes in hexadecimal, or a dot if there are none. */
void add_hex(struct text *text, const uint8_t *bytes, size_t len);

/* Empties a text. */
void clear(struct text *text);

/* Stops the program, with a line that says where, unless the condition holds. */
#define must(holds) must_hold((holds) != 0, #holds, __FILE__, __LINE__)
void must_hold(int holds, const char *what, const char *file, int line);

/*
 * Each function adds lines: for the size and scrollback; for the cursor, flags and cells; for the
 * modes; for the callbacks invoked.
 */
void add_size(struct text *text, vt100_handle *handle);
void add_picture(struct text *text, vt100_handle *handle);
void add_modes(struct text *text, vt100_handle *handle);
void add_calls(struct text *text, vt100_handle *parser);

#endif
