#include "lines.h"

#include <stdarg.h>
#include <stdio.h>
#include <stdlib.h>
#include <string.h>

void must_hold(int holds, const char *what, const char *file, int line) {
    if (holds) return;
    fprintf(stderr, "%s:%d: %s\n", file, line, what);
    exit(1);
}

void add(struct text *text, const char *format, ...) {
    for (;;) {
        va_list words;
        va_start(words, format);
        size_t room = text->room - text->len;
        int count = vsnprintf(room > 0 ? text->bytes + text->len : NULL, room, format, words);
        va_end(words);
        must(count >= 0);
        if ((size_t)count < room) {
            text->len += (size_t)count;
            return;
        }
        text->room = 2 * text->room + (size_t)count + 1;
        text->bytes = realloc(text->bytes, text->room);
        must(text->bytes != NULL);
    }
}

void clear(struct text *text) {
    text->len = 0;
    add(text, "%s", "");
}

void add_hex(struct text *text, const uint8_t *bytes, size_t len) {
    if (len == 0) add(text, ".");
    for (size_t i = 0; i < len; i++) add(text, "%02x", bytes[i]);
}

static void add_color(struct text *text, vt100_color color) {
    if (color.kind == 0) add(text, " default");
    if (color.kind == 1) add(text, " %u", color.red);
    if (color.kind == 2) add(text, " rgb:%u:%u:%u", color.red, color.green, color.blue);
    must(color.kind <= 2);
}

static void add_attrs(struct text *text, unsigned flags) {
    const char *letters = "bdiuv";
    add(text, (flags & 31) == 0 ? " -" : " ");
    for (int i = 0; i < 5; i++) {
        if ((flags >> i & 1) != 0) add(text, "%c", letters[i]);
    }
}

void add_size(struct text *text, vt100_handle *handle) {
    vt100_state state;
    vt100_cell cell;
    must(vt100_get_state(handle, &state) == VT100_OK);
    add(text, "size %u %u\n", state.rows, state.cols);
    add(text, "scrollback %zu %zu %zu\nlengths", state.scrollback, state.scrollback_len,
        state.scrollback_capacity);
    for (uint16_t row = 0; row < state.rows; row++) {
        uint16_t col = 0;
        while (vt100_get_cell(handle, row, col, &cell) == VT100_OK) col++;
        add(text, " %u", col);
    }
    add(text, "\n");
}

static void add_cell(struct text *text, uint16_t row, uint16_t col, const vt100_cell *cell) {
    static const vt100_cell blank;
    if (memcmp(cell, &blank, sizeof blank) == 0) return;
    must(cell->len < sizeof cell->text && cell->flags < 128);
    for (size_t i = cell->len; i < sizeof cell->text; i++) must(cell->text[i] == 0);
    add(text, "cell %u %u ", row, col);
    add_hex(text, cell->text, cell->len);
    int is_wide = cell->flags & VT100_WIDE, is_right = cell->flags & VT100_WIDE_CONTINUATION;
    add(text, is_wide ? " w" : is_right ? " r" : " n");
    add_color(text, cell->fgcolor);
    add_color(text, cell->bgcolor);
    add_attrs(text, cell->flags);
    add(text, "\n");
}

/*
 * Adds lines for the cells of a row, and checks that vt100_get_cells stores the same cells. `stored`
 * is what vt100_get_all_cells has stored for this row.
 */
static void add_row(struct text *text, vt100_handle *handle, uint16_t row, uint16_t cols,
                    const vt100_cell *stored) {
    vt100_cell cell;
    vt100_cell *cells = malloc(cols * sizeof *cells);
    must(cells != NULL);
    must(vt100_get_cells(handle, row, cells, cols) == VT100_OK);
    must(memcmp(cells, stored, cols * sizeof *cells) == 0);
    for (uint16_t col = 0; vt100_get_cell(handle, row, col, &cell) == VT100_OK; col++) {
        must(col >= cols || memcmp(&cells[col], &cell, sizeof cell) == 0);
        add_cell(text, row, col, &cell);
    }
    free(cells);
}

void add_picture(struct text *text, vt100_handle *handle) {
    vt100_state state;
    uint8_t wrapped;
    must(vt100_get_state(handle, &state) == VT100_OK);
    add(text, "cursor %u %u\nflags ", state.cursor_row, state.cursor_col);
    for (uint16_t row = 0; row < state.rows; row++) {
        must(vt100_row_wrapped(handle, row, &wrapped) == VT100_OK);
        add(text, "%u", wrapped);
    }
    add(text, "\n");
    size_t count = (size_t)state.rows * state.cols;
    vt100_cell *cells = malloc(count * sizeof *cells);
    must(cells != NULL && vt100_get_all_cells(handle, cells, count) == VT100_OK);
    for (uint16_t row = 0; row < state.rows; row++) {
        add_row(text, handle, row, state.cols, cells + (size_t)row * state.cols);
    }
    free(cells);
}

void add_modes(struct text *text, vt100_handle *handle) {
    static const char *const modes[] = {
        "None", "Press", "PressRelease", "ButtonMotion", "AnyMotion"};
    static const char *const encodings[] = {"Default", "Utf8", "Sgr"};
    vt100_state state;
    must(vt100_get_state(handle, &state) == VT100_OK);
    must(state.mouse_protocol_mode < 5 && state.mouse_protocol_encoding < 3);
    add(text, "screen %u %u %u %u %u", state.hide_cursor, state.alternate_screen,
        state.application_keypad, state.application_cursor, state.bracketed_paste);
    add(text, " %s %s %u", modes[state.mouse_protocol_mode],
        encodings[state.mouse_protocol_encoding], state.cursor_style);
    add_color(text, state.fgcolor);
    add_color(text, state.bgcolor);
    add_attrs(text, state.flags);
    add(text, "\n");
}

/* ---- calls */

static uint64_t number_at(const uint8_t *bytes, int count) {
    uint64_t number = 0;
    while (count-- > 0) number = number << 8 | bytes[count];
    return number;
}

/* Adds bytes as a string in double quotes, as Rust prints it. */
static void add_quoted(struct text *text, const uint8_t *bytes, size_t len) {
    add(text, "\"");
    for (size_t i = 0; i < len; i++) {
        uint8_t byte = bytes[i];
        if (byte == '\t') add(text, "\\t");
        else if (byte == '\r') add(text, "\\r");
        else if (byte == '\n') add(text, "\\n");
        else if (byte == '\\' || byte == '"' || byte == '\'') add(text, "\\%c", byte);
        else if (byte >= ' ' && byte < 127) add(text, "%c", byte);
        else add(text, "\\x%02x", byte);
    }
    add(text, "\"");
}

static void add_option(struct text *text, uint64_t number) {
    if (number == 256) add(text, "None");
    else add(text, "Some(%u)", (unsigned)number);
}

/* Adds the parts in a text that stores each of them after its length. */
static void add_parts(struct text *text, const uint8_t *bytes, size_t len) {
    for (size_t at = 0; at < len;) {
        size_t count = (size_t)number_at(bytes + at, 8);
        if (at > 0) add(text, ", ");
        add_quoted(text, bytes + at + 8, count);
        at += 8 + count;
    }
}

static void add_groups(struct text *text, const uint8_t *bytes, size_t len) {
    add(text, "[");
    for (size_t at = 0; at < len;) {
        size_t count = (size_t)number_at(bytes + at, 8);
        add(text, at > 0 ? ", [" : "[");
        for (size_t i = 0; i < count; i++) {
            unsigned number = (unsigned)number_at(bytes + at + 8 + 2 * i, 2);
            add(text, i > 0 ? ", %u" : "%u", number);
        }
        add(text, "]");
        at += 8 + 2 * count;
    }
    add(text, "]");
}

/* Adds the arguments between the parentheses of a call. */
static void add_arguments(struct text *text, const uint8_t *record) {
    uint64_t first = number_at(record + 1, 4), second = number_at(record + 5, 4);
    size_t len = (size_t)number_at(record + 9, 8);
    const uint8_t *bytes = record + 17;
    if (record[0] == 2) add(text, "%u, %u", (unsigned)first, (unsigned)second);
    if (record[0] == 3 || record[0] == 4 || record[0] == 6) add_quoted(text, bytes, len);
    if (record[0] == 5 || record[0] == 11) add_parts(text, bytes, len);
    if (record[0] == 7 || record[0] == 8) add(text, "%u", (unsigned)first);
    if (record[0] != 9 && record[0] != 10) return;
    add_option(text, first);
    add(text, ", ");
    add_option(text, second);
    add(text, ", ");
    if (record[0] == 9) add(text, "%u", bytes[0]);
    if (record[0] == 9) return;
    unsigned last = (unsigned)number_at(bytes, 4);
    add_groups(text, bytes + 4, len - 4);
    add(text, last == '\\' ? ", '\\%c'" : ", '%c'", last);
}

/* Adds the logged row at `index`, as the text of a fresh capture. */
static void add_scroll(struct text *text, vt100_handle *parser, size_t index, uint64_t alternate) {
    vt100_handle capture = VT100_EMPTY;
    size_t len;
    must(vt100_capture_new(&capture) == VT100_OK);
    must(vt100_capture_row(parser, index, &capture, &len) == VT100_OK);
    uint8_t *bytes = malloc(len + 1);
    must(bytes != NULL);
    must(vt100_copy(&capture, bytes, len + 1) == len);
    add(text, "scroll ");
    add_hex(text, bytes, len);
    add(text, " %u\n", (unsigned)alternate);
    free(bytes);
    vt100_free(&capture);
}

void add_calls(struct text *text, vt100_handle *parser) {
    static const char *const names[] = {
        "audible_bell", "visual_bell", "resize", "set_window_icon_name", "set_window_title",
        "copy_to_clipboard", "paste_from_clipboard", "unhandled_char", "unhandled_control",
        "unhandled_escape", "unhandled_csi", "unhandled_osc"};
    size_t len, row = 0;
    uint8_t is_whole = 0;
    must(vt100_events(parser, &len, &is_whole) == VT100_OK && is_whole == 1);
    uint8_t *records = malloc(len + 1);
    must(records != NULL);
    must(vt100_copy_events(parser, records, len + 1) == len);
    for (size_t at = 0; at < len; at += 17 + (size_t)number_at(records + at + 9, 8)) {
        must(records[at] <= 12);
        if (records[at] == 12) {
            add_scroll(text, parser, row++, number_at(records + at + 1, 4));
            continue;
        }
        add(text, "event %s(", names[records[at]]);
        add_arguments(text, records + at);
        add(text, ")\n");
    }
    free(records);
}
