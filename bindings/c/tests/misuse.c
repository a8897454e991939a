/*
 * misuse: tests each function with an empty handle and with a handle of each kind; each status that
 * a function may return, except VT100_OUT_OF_MEMORY and VT100_FAILED (see refused.c) and
 * VT100_NO_NUMBER, which needs 2^64 viewers; null pointers to empty buffers; and the same handle
 * passed twice. A call that returns an error must not have changed anything.
 */
#include "lines.h"

#include <stdio.h>
#include <stdlib.h>
#include <string.h>

enum { ROWS = 3, COLS = 7, UNTOUCHED = 4711 };

/* One bit for each kind of object. */
enum {
    P = 1 << VT100_PARSER,
    S = 1 << VT100_SCREEN,
    M = 1 << VT100_MIRROR,
    C = 1 << VT100_CAPTURE,
    T = 1 << VT100_CHARSETS
};

static const uint8_t *const some = (const uint8_t *)"ab";

/* Returns a handle with an object of this kind. A parser has parsed some bytes. */
static vt100_handle made(int kind) {
    vt100_handle handle = VT100_EMPTY, parser = VT100_EMPTY;
    if (kind == VT100_CAPTURE) must(vt100_capture_new(&handle) == VT100_OK);
    if (kind == VT100_CHARSETS) must(vt100_charsets_new(&handle) == VT100_OK);
    if (kind == VT100_MIRROR) must(vt100_mirror_new(ROWS, COLS, 2, &handle) == VT100_OK);
    if (kind == VT100_PARSER) must(vt100_parser_new(ROWS, COLS, 0, 0x1fff, &handle) == VT100_OK);
    if (kind == VT100_PARSER) must(vt100_process(&handle, (const uint8_t *)"ab\a", 3) == VT100_OK);
    if (kind == VT100_SCREEN) {
        parser = made(VT100_PARSER);
        must(vt100_save(&parser, &handle) == VT100_OK);
        vt100_free(&parser);
    }
    must(vt100_kind(&handle) == kind);
    return handle;
}

/* ---- calls with one handle, each with otherwise valid arguments */

typedef vt100_status call_of_one(vt100_handle *handle);

static size_t len, ends[ROWS];
static uint8_t byte;
static uint16_t rows, cols;
static uint64_t viewer;
static vt100_cell cells[COLS], all_cells[ROWS * COLS];
static vt100_state state;

static vt100_status process(vt100_handle *h) { return vt100_process(h, some, 2); }
static vt100_status until(vt100_handle *h) { return vt100_process_until(h, some, 2, &len); }
static vt100_status full(vt100_handle *h) { return vt100_process_until_full(h, some, 2, &len); }
static vt100_status resize(vt100_handle *h) { return vt100_set_size(h, ROWS, COLS); }
static vt100_status screen_resize(vt100_handle *h) { return vt100_screen_set_size(h, ROWS, COLS); }
static vt100_status scrollback(vt100_handle *h) { return vt100_set_scrollback(h, 1); }
static vt100_status get_state(vt100_handle *h) { return vt100_get_state(h, &state); }
static vt100_status get_cell(vt100_handle *h) { return vt100_get_cell(h, 0, 1, cells); }
static vt100_status get_cells(vt100_handle *h) { return vt100_get_cells(h, 2, cells, COLS); }
static vt100_status get_all_cells(vt100_handle *h) {
    return vt100_get_all_cells(h, all_cells, ROWS * COLS);
}
static vt100_status wrapped(vt100_handle *h) { return vt100_row_wrapped(h, 2, &byte); }
static vt100_status row_cells(vt100_handle *h) {
    return vt100_get_row_cells(h, 2, cells, COLS, &len, &byte);
}
static vt100_status row_contents(vt100_handle *h) { return vt100_row_contents(h, 2, &len); }
static vt100_status ground(vt100_handle *h) { return vt100_is_ground(h, &byte); }
static vt100_status pending(vt100_handle *h) { return vt100_pending_len(h, &len); }
static vt100_status erasures(vt100_handle *h) {
    uint64_t count = UNTOUCHED;
    vt100_status status = vt100_scrollback_erasures(h, &count);
    must(count == (status == VT100_OK ? 0 : UNTOUCHED));
    return status;
}
static vt100_status steady(vt100_handle *h) { return vt100_is_steady(h, &byte); }
static vt100_status current(vt100_handle *h) { return vt100_mirror_is_current(h, 0, &byte); }
static vt100_status contents(vt100_handle *h) { return vt100_contents(h, &len); }
static vt100_status between(vt100_handle *h) {
    return vt100_contents_between(h, 0, COLS, 2, COLS, &len);
}
static vt100_status formatted(vt100_handle *h) { return vt100_contents_formatted(h, &len); }
static vt100_status portable(vt100_handle *h) {
    return vt100_contents_formatted_with(h, VT100_PORTABLE, &len);
}
static vt100_status reset(vt100_handle *h) { return vt100_contents_formatted_reset(h, &len); }
static vt100_status basic(vt100_handle *h) { return vt100_contents_formatted_basic(h, &len); }
static vt100_status all(vt100_handle *h) { return vt100_state_formatted(h, &len); }
static vt100_status all_portable(vt100_handle *h) {
    return vt100_state_formatted_with(h, VT100_PORTABLE, &len);
}
static vt100_status cursor(vt100_handle *h) { return vt100_cursor_state_formatted(h, &len); }
static vt100_status attributes(vt100_handle *h) { return vt100_attributes_formatted(h, &len); }
static vt100_status input(vt100_handle *h) { return vt100_input_mode_formatted(h, &len); }
static vt100_status plain_rows(vt100_handle *h) { return vt100_rows(h, 0, COLS, ends, ROWS, &len); }
static vt100_status drawn_rows(vt100_handle *h) {
    return vt100_rows_formatted(h, 0, COLS, ends, ROWS, &len);
}
static vt100_status events(vt100_handle *h) { return vt100_events(h, &len, &byte); }
static vt100_status limit(vt100_handle *h) { return vt100_set_event_limit(h, 99); }
static vt100_status translate(vt100_handle *h) {
    static uint8_t room[6];
    return vt100_charsets_translate(h, some, 2, room, sizeof room, &len);
}
static vt100_status join(vt100_handle *h) { return vt100_join(h, &viewer); }

static vt100_status save(vt100_handle *h) {
    vt100_handle out = VT100_EMPTY;
    vt100_status status = vt100_save(h, &out);
    must((status == VT100_OK) == (vt100_kind(&out) != VT100_NONE));
    vt100_free(&out);
    return status;
}

static vt100_status shown_copy(vt100_handle *h) {
    vt100_handle out = VT100_EMPTY;
    vt100_status status = vt100_shown_copy(h, &out);
    must((status == VT100_OK) == (vt100_kind(&out) == VT100_SCREEN));
    vt100_free(&out);
    return status;
}

static vt100_status leave(vt100_handle *h) {
    if (vt100_kind(h) == VT100_MIRROR) must(vt100_join(h, &viewer) == VT100_OK);
    return vt100_leave(h, viewer);
}

static vt100_status update(vt100_handle *h) {
    if (vt100_kind(h) == VT100_MIRROR) must(vt100_join(h, &viewer) == VT100_OK);
    return vt100_update(h, viewer, &rows, &cols, &len);
}

static vt100_status update_scrolling(vt100_handle *h) {
    if (vt100_kind(h) == VT100_MIRROR) must(vt100_join(h, &viewer) == VT100_OK);
    return vt100_update_scrolling(h, viewer, &rows, &cols, &len);
}

static vt100_status update_with(vt100_handle *h) {
    if (vt100_kind(h) == VT100_MIRROR) must(vt100_join(h, &viewer) == VT100_OK);
    return vt100_update_with(h, viewer, VT100_DIFF_SCROLL | VT100_DIFF_REPEAT, &rows, &cols, &len);
}

static const struct {
    const char *name;
    call_of_one *call;
    int kinds;
} of_one[] = {
    {"process", process, P | M}, {"process_until", until, P}, {"process_until_full", full, P},
    {"set_size", resize, P | S | M},
    {"screen_set_size", screen_resize, P | S}, {"set_scrollback", scrollback, P | S},
    {"clear_scrollback", vt100_clear_scrollback, P | S}, {"get_state", get_state, P | S},
    {"get_cell", get_cell, P | S}, {"get_cells", get_cells, P | S},
    {"get_all_cells", get_all_cells, P | S}, {"row_wrapped", wrapped, P | S},
    {"contents", contents, P | S}, {"contents_between", between, P | S},
    {"contents_formatted", formatted, P | S}, {"contents_formatted_with", portable, P | S},
    {"contents_formatted_reset", reset, P | S},
    {"contents_formatted_basic", basic, P | S}, {"state_formatted", all, P | S},
    {"state_formatted_with", all_portable, P | S},
    {"cursor_state_formatted", cursor, P | S}, {"attributes_formatted", attributes, P | S},
    {"input_mode_formatted", input, P | S}, {"rows", plain_rows, P | S},
    {"rows_formatted", drawn_rows, P | S}, {"events", events, P},
    {"clear_events", vt100_clear_events, P}, {"set_event_limit", limit, P}, {"join", join, M},
    {"leave", leave, M},
    {"update", update, M}, {"update_scrolling", update_scrolling, M},
    {"update_with", update_with, M}, {"save", save, P | S | C},
    {"shown_copy", shown_copy, P | S}, {"is_steady", steady, P | S},
    {"mirror_is_current", current, M}, {"pending_len", pending, P},
    {"scrollback_erasures", erasures, P},
    {"is_ground", ground, P | M}, {"get_row_cells", row_cells, P | S},
    {"row_contents", row_contents, P | S},
    {"charsets_translate", translate, T},
};

static void calls_of_one(void) {
    for (size_t i = 0; i < sizeof of_one / sizeof *of_one; i++) {
        for (int kind = VT100_NONE; kind <= VT100_CHARSETS; kind++) {
            vt100_handle handle = kind == VT100_NONE ? (vt100_handle)VT100_EMPTY : made(kind);
            vt100_status wanted = kind == VT100_NONE ? VT100_NO_OBJECT
                : (of_one[i].kinds >> kind & 1) != 0 ? VT100_OK
                                                     : VT100_WRONG_KIND;
            len = UNTOUCHED;
            byte = 99;
            vt100_status status = of_one[i].call(&handle);
            size_t kept = of_one[i].call == until || of_one[i].call == full ? 0 : UNTOUCHED;
            int is_right =
                status == wanted && (status == VT100_OK || (len == kept && byte == 99));
            if (!is_right) printf("%s of kind %d: %u, %zu\n", of_one[i].name, kind, status, len);
            must(is_right);
            must(vt100_kind(&handle) == kind);
            vt100_free(&handle);
            vt100_free(&handle);
            must(vt100_kind(&handle) == VT100_NONE);
        }
    }
}

/* ---- calls with two handles */

typedef vt100_status call_of_two(vt100_handle *handle, vt100_handle *other);

static vt100_status diff(vt100_handle *h, vt100_handle *o) {
    return vt100_contents_diff(h, o, &len);
}
static vt100_status scrolling(vt100_handle *h, vt100_handle *o) {
    return vt100_contents_diff_scrolling(h, o, &len);
}
static vt100_status diff_with(vt100_handle *h, vt100_handle *o) {
    return vt100_contents_diff_with(h, o, VT100_DIFF_REPEAT, &len);
}
static vt100_status state_diff(vt100_handle *h, vt100_handle *o) {
    return vt100_state_diff(h, o, &len);
}
static vt100_status state_diff_with(vt100_handle *h, vt100_handle *o) {
    return vt100_state_diff_with(h, o, VT100_DIFF_REPEAT, &len);
}
static vt100_status input_diff(vt100_handle *h, vt100_handle *o) {
    return vt100_input_mode_diff(h, o, &len);
}
static vt100_status rows_diff(vt100_handle *h, vt100_handle *o) {
    return vt100_rows_diff(h, o, 0, COLS, ends, ROWS, &len);
}
static vt100_status capture(vt100_handle *h, vt100_handle *o) {
    return vt100_capture_screen(h, o, &len);
}

static const struct {
    const char *name;
    call_of_two *call;
    int first, second, is_of_one_size;
} of_two[] = {
    {"contents_diff", diff, P | S, P | S, 1},
    {"contents_diff_scrolling", scrolling, P | S, P | S, 1},
    {"contents_diff_with", diff_with, P | S, P | S, 1},
    {"state_diff", state_diff, P | S, P | S, 1},
    {"state_diff_with", state_diff_with, P | S, P | S, 1}, {"rows_diff", rows_diff, P | S, P | S, 1},
    {"input_mode_diff", input_diff, P | S, P | S, 0}, {"swap", vt100_swap, P | S, P | S, 0},
    {"capture_screen", capture, P | S, C, 0},
};

/* Checks the status of a call with two handles of these kinds. */
static void call_of_kinds(size_t i, int kind, int other) {
    vt100_handle one = kind == VT100_NONE ? (vt100_handle)VT100_EMPTY : made(kind);
    vt100_handle two = other == VT100_NONE ? (vt100_handle)VT100_EMPTY : made(other);
    int is_wrong = (kind != VT100_NONE && (of_two[i].first >> kind & 1) == 0)
        || (other != VT100_NONE && (of_two[i].second >> other & 1) == 0);
    int is_empty = kind == VT100_NONE || other == VT100_NONE;
    vt100_status status = of_two[i].call(&one, &two);
    int is_right = is_empty && is_wrong ? status == VT100_NO_OBJECT || status == VT100_WRONG_KIND
        : status == (is_empty ? VT100_NO_OBJECT : is_wrong ? VT100_WRONG_KIND : VT100_OK);
    if (!is_right) printf("%s of kinds %d, %d: %u\n", of_two[i].name, kind, other, status);
    must(is_right && vt100_kind(&one) == kind && vt100_kind(&two) == other);
    if (!is_empty && !is_wrong && of_two[i].second == (P | S)) {
        must(vt100_screen_set_size(&two, ROWS, COLS + 1) == VT100_OK);
        status = of_two[i].call(&one, &two);
        must(status == (of_two[i].is_of_one_size ? VT100_OTHER_SIZE : VT100_OK));
    }
    vt100_free(&one);
    vt100_free(&two);
}

static void calls_of_two(void) {
    for (size_t i = 0; i < sizeof of_two / sizeof *of_two; i++) {
        for (int kind = VT100_NONE; kind <= VT100_CHARSETS; kind++) {
            for (int other = VT100_NONE; other <= VT100_CHARSETS; other++) {
                call_of_kinds(i, kind, other);
            }
        }
    }
}

/* Checks that calls to which the same handle is passed twice return a status and change nothing. */
static void twice(void) {
    vt100_handle parser = made(VT100_PARSER);
    for (size_t i = 0; i < sizeof of_two / sizeof *of_two; i++) {
        len = UNTOUCHED;
        vt100_status status = of_two[i].call(&parser, &parser);
        if (of_two[i].call != capture) must(status == VT100_BAD_ARGUMENT);
        must(status != VT100_OK && len == UNTOUCHED && vt100_kind(&parser) == VT100_PARSER);
    }
    must(vt100_save(&parser, &parser) == VT100_IN_USE);
    must(vt100_shown_copy(&parser, &parser) == VT100_IN_USE);
    must(vt100_capture_row(&parser, 0, &parser, &len) != VT100_OK);
    must(vt100_kind(&parser) == VT100_PARSER);
    must(vt100_contents(&parser, &len) == VT100_OK && len == 2);
    vt100_free(&parser);
}

/* ---- arguments */

static void making(void) {
    vt100_handle handle = made(VT100_PARSER), empty = VT100_EMPTY, screen = made(VT100_SCREEN);
    void *at = handle.at;
    must(vt100_parser_new(ROWS, COLS, 0, 0, &handle) == VT100_IN_USE);
    must(vt100_mirror_new(ROWS, COLS, 0, &handle) == VT100_IN_USE);
    must(vt100_capture_new(&handle) == VT100_IN_USE);
    must(vt100_charsets_new(&handle) == VT100_IN_USE);
    must(vt100_save(&screen, &handle) == VT100_IN_USE && handle.at == at);
    must(vt100_shown_copy(&screen, &handle) == VT100_IN_USE && handle.at == at);
    must(vt100_parser_new(0, COLS, 0, 0, &empty) == VT100_BAD_ARGUMENT);
    must(vt100_parser_new(ROWS, 0, 0, 0, &empty) == VT100_BAD_ARGUMENT);
    must(vt100_mirror_new(0, COLS, 0, &empty) == VT100_BAD_ARGUMENT);
    must(vt100_mirror_new(ROWS, 0, 0, &empty) == VT100_BAD_ARGUMENT && empty.at == NULL);
    must(vt100_set_size(&handle, 0, COLS) == VT100_BAD_ARGUMENT);
    must(vt100_set_size(&handle, ROWS, 0) == VT100_BAD_ARGUMENT);
    must(vt100_screen_set_size(&handle, 0, COLS) == VT100_BAD_ARGUMENT);
    must(vt100_screen_set_size(&handle, ROWS, 0) == VT100_BAD_ARGUMENT);
    must(vt100_get_state(&handle, &state) == VT100_OK && state.rows == ROWS && state.cols == COLS);
    vt100_free(&handle);
    vt100_free(&screen);
}

static void places(void) {
    vt100_handle handle = made(VT100_PARSER), screen = made(VT100_SCREEN);
    must(vt100_get_cell(&handle, ROWS, 0, cells) == VT100_BAD_ARGUMENT);
    must(vt100_get_cell(&handle, 0, COLS, cells) == VT100_BAD_ARGUMENT);
    must(vt100_get_cells(&handle, ROWS, cells, COLS) == VT100_BAD_ARGUMENT);
    must(vt100_get_cells(&handle, 0, cells, COLS - 1) == VT100_BAD_ARGUMENT);
    memset(all_cells, 99, sizeof all_cells);
    must(vt100_get_all_cells(&handle, all_cells, ROWS * COLS - 1) == VT100_BAD_ARGUMENT);
    must(vt100_get_all_cells(&handle, all_cells, COLS) == VT100_BAD_ARGUMENT);
    for (size_t i = 0; i < ROWS * COLS; i++) must(all_cells[i].text[0] == 99);
    must(vt100_row_wrapped(&handle, ROWS, &byte) == VT100_BAD_ARGUMENT);
    must(vt100_contents_between(&handle, 0, COLS + 1, 1, 0, &len) == VT100_BAD_ARGUMENT);
    must(vt100_contents_between(&handle, 1, COLS + 1, 1, 0, &len) == VT100_OK && len == 0);
    for (size_t i = 0; i < ROWS; i++) ends[i] = UNTOUCHED;
    must(vt100_rows(&handle, 0, 1, ends, ROWS - 1, &len) == VT100_BAD_ARGUMENT);
    must(vt100_rows_formatted(&handle, 0, 1, ends, ROWS - 1, &len) == VT100_BAD_ARGUMENT);
    must(vt100_rows_diff(&handle, &screen, 0, 1, ends, ROWS - 1, &len) == VT100_BAD_ARGUMENT);
    must(vt100_rows_formatted(&handle, COLS, 1, ends, ROWS, &len) == VT100_BAD_ARGUMENT);
    must(vt100_rows_diff(&handle, &screen, COLS, 1, ends, ROWS, &len) == VT100_BAD_ARGUMENT);
    for (size_t i = 0; i < ROWS; i++) must(ends[i] == UNTOUCHED);
    must(vt100_rows(&handle, COLS, 1, ends, ROWS, &len) == VT100_OK && len == 0);
    for (size_t i = 0; i < ROWS; i++) must(ends[i] == 0);
    vt100_free(&screen);
    screen = made(VT100_CAPTURE);
    must(vt100_capture_row(&handle, 0, &screen, &len) == VT100_BAD_ARGUMENT);
    vt100_free(&screen);
    vt100_free(&handle);
}

static void viewers(void) {
    vt100_handle mirror = made(VT100_MIRROR);
    must(vt100_join(&mirror, &viewer) == VT100_OK);
    must(vt100_leave(&mirror, viewer + 1) == VT100_BAD_ARGUMENT);
    must(vt100_update(&mirror, viewer + 1, &rows, &cols, &len) == VT100_BAD_ARGUMENT);
    must(vt100_update(&mirror, viewer, &rows, &cols, &len) == VT100_OK);
    must(rows == ROWS && cols == COLS && len > 0);
    must(vt100_update_scrolling(&mirror, viewer, &rows, &cols, &len) == VT100_OK);
    must(rows == 0 && cols == 0 && len == 0);
    must(vt100_leave(&mirror, viewer) == VT100_OK);
    must(vt100_leave(&mirror, viewer) == VT100_BAD_ARGUMENT);
    must(vt100_update_scrolling(&mirror, viewer, &rows, &cols, &len) == VT100_BAD_ARGUMENT);
    vt100_free(&mirror);
}

/* Checks that a null pointer is allowed for a buffer of length 0. */
static void null(void) {
    vt100_handle parser = made(VT100_PARSER), empty = VT100_EMPTY;
    size_t start = UNTOUCHED, end = UNTOUCHED;
    must(vt100_process(&parser, NULL, 0) == VT100_OK);
    must(vt100_process_until(&parser, NULL, 0, &len) == VT100_OK && len == 0);
    len = UNTOUCHED;
    must(vt100_process_until_full(&parser, NULL, 0, &len) == VT100_OK && len == 0);
    must(vt100_get_cells(&parser, 0, NULL, 0) == VT100_BAD_ARGUMENT);
    must(vt100_get_all_cells(&parser, NULL, 0) == VT100_BAD_ARGUMENT);
    must(vt100_rows(&parser, 0, 1, NULL, 0, &len) == VT100_BAD_ARGUMENT);
    must(vt100_contents(&parser, &len) == VT100_OK && len == 2);
    must(vt100_copy(&parser, NULL, 0) == 0);
    must(vt100_copy_events(&parser, NULL, 0) == 0);
    must(vt100_copy(&empty, &byte, 1) == 0 && vt100_copy_events(&empty, &byte, 1) == 0);
    must(vt100_next_plain(NULL, 0, 0, &start, &end) == VT100_OK && start == 0 && end == 0);
    must(vt100_next_row(NULL, 0, 5, 0, &start, &end) == VT100_OK && start == 0 && end == SIZE_MAX);
    vt100_free(&parser);
}

/* Checks captures that are not UTF-8, and positions inside a character. */
static void no_texts(void) {
    const uint8_t *mark = (const uint8_t *)"\xc3\xa9\x1b[1mx";
    size_t start = UNTOUCHED, end = UNTOUCHED;
    must(vt100_next_plain(mark, 1, 0, &start, &end) == VT100_BAD_ARGUMENT);
    must(vt100_next_plain(mark, 7, 1, &start, &end) == VT100_BAD_ARGUMENT);
    must(vt100_next_plain(mark, 7, 8, &start, &end) == VT100_BAD_ARGUMENT);
    must(vt100_next_row(mark, 1, 5, 0, &start, &end) == VT100_BAD_ARGUMENT);
    must(vt100_next_row(mark, 7, 5, 1, &start, &end) == VT100_BAD_ARGUMENT);
    must(vt100_next_row(mark, 7, 5, 8, &start, &end) == VT100_BAD_ARGUMENT);
    must(start == UNTOUCHED && end == UNTOUCHED);
    must(vt100_next_plain(mark, 7, 0, &start, &end) == VT100_OK && start == 0 && end == 2);
    must(vt100_next_plain(mark, 7, 2, &start, &end) == VT100_OK && start == 6 && end == 7);
    must(vt100_next_plain(mark, 7, 7, &start, &end) == VT100_OK && start == 7 && end == 7);
    must(vt100_next_row(mark, 7, 1, 0, &start, &end) == VT100_OK && start == 6 && end == 6);
    must(vt100_next_row(mark, 7, 1, 6, &start, &end) == VT100_OK && start == 7 && end == SIZE_MAX);
}

/* Checks that records are cut if there is not enough room, and that they can be cleared. */
static void log_of(void) {
    vt100_handle parser = VT100_EMPTY;
    uint8_t records[64];
    must(vt100_parser_new(ROWS, COLS, 0, 1 << 0 | 1 << 4, &parser) == VT100_OK);
    const uint8_t *bells = (const uint8_t *)"a\x1bgb\ac\a", *title = (const uint8_t *)"\x1b]2;hi\a";
    must(vt100_process_until(&parser, bells, 7, &len) == VT100_OK && len == 5);
    must(vt100_process_until(&parser, title, 7, &len) == VT100_OK && len == 7);
    must(vt100_events(&parser, &len, &byte) == VT100_OK && len == 17 + 17 + 2 && byte == 1);
    memset(records, 99, sizeof records);
    must(vt100_copy_events(&parser, records, 20) == 20 && records[20] == 99);
    must(vt100_copy_events(&parser, records, sizeof records) == 36);
    must(records[0] == 0 && records[17] == 4 && memcmp(records + 34, "hi", 2) == 0);
    must(vt100_clear_events(&parser) == VT100_OK);
    must(vt100_events(&parser, &len, &byte) == VT100_OK && len == 0 && byte == 1);
    vt100_free(&parser);
}

/*
 * Checks that each status has a text of its own, with a word from its description in the header, and
 * that all other numbers have the same text.
 */
static void names(void) {
    static const char *const words[] = {
        "done", "out of memory", "earlier call", "bad argument", "kind", "sizes", "is empty",
        "not empty", "no viewer numbers"
    };
    for (unsigned first = 0; first <= VT100_NO_NUMBER; first++) {
        const char *text = vt100_status_text((vt100_status)first);
        must(strstr(text, words[first]) != NULL);
        for (unsigned other = first + 1; other <= VT100_NO_NUMBER + 1; other++) {
            must(strcmp(text, vt100_status_text((vt100_status)other)) != 0);
        }
    }
    must(strcmp(vt100_status_text(255), vt100_status_text(VT100_NO_NUMBER + 1)) == 0);
    must(strstr(vt100_status_text(VT100_BAD_ARGUMENT), "viewer") != NULL);
}

int main(void) {
    calls_of_one();
    names();
    calls_of_two();
    twice();
    making();
    places();
    viewers();
    null();
    no_texts();
    log_of();
    printf("misuse: each call answered\n");
    return 0;
}
