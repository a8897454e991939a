/*
 * screens: tests of the cells of all rows, of whether a screen is steady, of copies of what a screen
 * displays, of whether a viewer is up to date, of unfinished commands and sequences, of the rows that
 * a screen keeps, and of the version.
 */
#include "heap_refusing.h"
#include "lines.h"

#include <stdio.h>
#include <stdlib.h>
#include <string.h>

/* U+231A, a wide character that U+FE0E and U+FE0F make narrow. */
#define NARROWED "\xe2\x8c\x9a\xef\xb8\x8e\xef\xb8\x8f"

static uint8_t answer;

static vt100_handle made(uint16_t rows, uint16_t cols, size_t capacity) {
    vt100_handle parser = VT100_EMPTY;
    must(vt100_parser_new(rows, cols, capacity, 0, &parser) == VT100_OK);
    return parser;
}

static void read_into(vt100_handle *handle, const char *bytes) {
    must(vt100_process(handle, (const uint8_t *)bytes, strlen(bytes)) == VT100_OK);
}

/* Returns whether the text that was last generated with a handle is `text`. */
static int is_text(vt100_handle *handle, size_t len, const char *text) {
    uint8_t *bytes = malloc(len + 1);
    must(bytes != NULL && vt100_copy(handle, bytes, len + 1) == len);
    int same = len == strlen(text) && memcmp(bytes, text, len) == 0;
    free(bytes);
    return same;
}

static int has_contents(vt100_handle *handle, const char *text) {
    size_t len = 0;
    must(vt100_contents(handle, &len) == VT100_OK);
    return is_text(handle, len, text);
}

/* ---- cells */

/* What a cell must be: its text, its flags, and the palette index of its foreground color or -1. */
struct wanted {
    const char *text;
    uint8_t flags;
    int color;
};

static int is_cell(const vt100_cell *cell, const struct wanted *wanted) {
    size_t len = strlen(wanted->text);
    int is_indexed = wanted->color >= 0;
    return cell->len == len && memcmp(cell->text, wanted->text, len) == 0
        && cell->flags == wanted->flags && cell->fgcolor.kind == is_indexed
        && cell->fgcolor.red == (is_indexed ? wanted->color : 0) && cell->bgcolor.kind == 0;
}

/*
 * Checks the cells of all rows, for which there is room for one cell more than necessary. The last
 * one must be unchanged. All allocations fail during the call.
 */
static void are_cells(vt100_handle *handle, size_t count, const struct wanted *wanted) {
    vt100_cell cells[16];
    must(count < 16);
    memset(cells, 99, sizeof cells);
    heap_refused = heap_allocations;
    heap_refuses_all_behind = 1;
    must(vt100_get_all_cells(handle, cells, count + 1) == VT100_OK);
    heap_refused = -1;
    for (size_t i = 0; i < count; i++) must(is_cell(&cells[i], &wanted[i]));
    for (size_t i = 0; i < sizeof *cells; i++) must(((uint8_t *)&cells[count])[i] == 99);
}

/*
 * The cells of all displayed rows are stored one row after the other. A scrollback row that is
 * longer than the screen's rows is cut, and a shorter one is filled up with blank cells.
 */
static void all_cells(void) {
    static const struct wanted page[] = {
        {"a", VT100_BOLD, 1}, {"b", VT100_BOLD, 1}, {"", 0, -1}, {"", 0, -1},
        {"\xe4\xb8\xad", VT100_WIDE, -1}, {"", VT100_WIDE_CONTINUATION, -1}, {".", 0, -1},
        {"", 0, -1},
    };
    static const struct wanted cut[] = {
        {"w", 0, 2}, {"x", 0, -1}, {"y", 0, -1}, {"1", 0, -1}, {"", 0, -1}, {"", 0, -1},
    };
    static const struct wanted filled[] = {
        {"w", 0, 2}, {"x", 0, -1}, {"y", 0, -1}, {"z", 0, -1}, {"", 0, -1},
        {"1", 0, -1}, {"", 0, -1}, {"", 0, -1}, {"", 0, -1}, {"", 0, -1},
    };
    vt100_handle parser = made(2, 4, 10), saved = VT100_EMPTY;
    read_into(&parser, "\x1b[31;1mab\x1b[m\r\n\xe4\xb8\xad.");
    are_cells(&parser, 8, page);
    must(vt100_save(&parser, &saved) == VT100_OK);
    read_into(&parser, "\x1b[2J\x1b[H\x1b[32mw\x1b[mxyz\r\n1\r\n2");
    are_cells(&saved, 8, page);
    must(vt100_set_size(&parser, 2, 3) == VT100_OK);
    must(vt100_set_scrollback(&parser, 1) == VT100_OK);
    are_cells(&parser, 6, cut);
    must(vt100_set_scrollback(&parser, 0) == VT100_OK && vt100_set_size(&parser, 2, 5) == VT100_OK);
    must(vt100_set_scrollback(&parser, 1) == VT100_OK);
    are_cells(&parser, 10, filled);
    vt100_free(&saved);
    vt100_free(&parser);
}

/* ---- steadiness */

static int is_steady(vt100_handle *handle) {
    answer = 99;
    must(vt100_is_steady(handle, &answer) == VT100_OK && answer <= 1);
    return answer;
}

/*
 * A screen that displays a glyph that U+FE0F made narrow is not steady; all other screens here are.
 */
static void steady(void) {
    static const struct {
        const char *bytes;
        int is_steady;
    } steps[] = {
        {"\x1b[31mabcd\xe4\xb8\xad\xe6\x96\x87", 1}, {"\x1b[H\x1b[Je\xcc\x81\xcc\x82", 1},
        {"\x1b[H\x1b[Ja\xe2\x9d\xa4\xef\xb8\x8f", 1}, {"\x1b[H\x1b[J" NARROWED, 0},
        {"\x1b[?47h", 1}, {"\x1b[?47l", 0}, {"\x1b[1;1Hx", 1},
    };
    vt100_handle parser = made(2, 4, 0);
    must(is_steady(&parser) == 1);
    for (size_t i = 0; i < sizeof steps / sizeof *steps; i++) {
        vt100_handle saved = VT100_EMPTY;
        read_into(&parser, steps[i].bytes);
        must(is_steady(&parser) == steps[i].is_steady);
        must(vt100_save(&parser, &saved) == VT100_OK && is_steady(&saved) == steps[i].is_steady);
        vt100_free(&saved);
    }
    vt100_free(&parser);
}

/*
 * A copy contains what is displayed, but neither scrollback nor the other page, and takes less
 * memory.
 */
static void shown_copies(void) {
    vt100_handle parser = made(2, 4, 1000), copy = VT100_EMPTY, whole = VT100_EMPTY;
    vt100_state state;
    size_t len = 99, before, copied;
    for (int i = 0; i < 500; i++) read_into(&parser, "some\r\n");
    read_into(&parser, "\x1b[?1049h\x1b[Halt");
    before = heap_bytes;
    must(vt100_shown_copy(&parser, &copy) == VT100_OK);
    copied = heap_bytes - before;
    must(vt100_kind(&copy) == VT100_SCREEN && has_contents(&copy, "alt"));
    must(vt100_save(&parser, &whole) == VT100_OK);
    must(heap_bytes - before - copied > copied + 400 * 4 * sizeof(vt100_cell));
    must(vt100_contents_diff(&parser, &copy, &len) == VT100_OK && len == 0);
    must(vt100_shown_copy(&parser, &copy) == VT100_IN_USE && has_contents(&copy, "alt"));
    must(vt100_shown_copy(&parser, &parser) == VT100_IN_USE);
    vt100_free(&copy);

    read_into(&parser, "\x1b[?1049l\x1b[H1\r\n2");
    must(vt100_shown_copy(&parser, &copy) == VT100_OK && has_contents(&copy, "1ome\n2"));
    must(vt100_get_state(&copy, &state) == VT100_OK && state.scrollback_len == 0);
    must(state.rows == 2 && state.cols == 4 && state.cursor_row == 1 && state.cursor_col == 1);
    read_into(&parser, "3");
    must(vt100_contents_diff(&parser, &copy, &len) == VT100_OK && is_text(&parser, len, "3"));
    must(has_contents(&copy, "1ome\n2"));
    vt100_free(&copy);

    must(vt100_set_scrollback(&parser, 1) == VT100_OK);
    must(vt100_shown_copy(&parser, &copy) == VT100_OK && has_contents(&copy, "some\n1ome"));
    vt100_free(&copy);
    vt100_free(&whole);
    vt100_free(&parser);
}

static int is_current(vt100_handle *mirror, uint64_t viewer) {
    answer = 99;
    must(vt100_mirror_is_current(mirror, viewer, &answer) == VT100_OK && answer <= 1);
    return answer;
}

/*
 * A viewer is up to date from its update until the mirror parses bytes or is resized, or the viewer
 * leaves.
 */
static void viewers(void) {
    vt100_handle mirror = VT100_EMPTY;
    uint64_t viewer, other;
    uint16_t rows, cols;
    size_t len;
    must(vt100_mirror_new(3, 8, 0, &mirror) == VT100_OK);
    must(vt100_join(&mirror, &viewer) == VT100_OK && vt100_join(&mirror, &other) == VT100_OK);
    must(!is_current(&mirror, viewer));
    must(vt100_update(&mirror, viewer, &rows, &cols, &len) == VT100_OK);
    must(is_current(&mirror, viewer) && !is_current(&mirror, other));
    read_into(&mirror, "a");
    must(!is_current(&mirror, viewer));
    must(vt100_update(&mirror, viewer, &rows, &cols, &len) == VT100_OK && rows == 0);
    must(is_text(&mirror, len, "a") && is_current(&mirror, viewer));
    must(vt100_update(&mirror, viewer, &rows, &cols, &len) == VT100_OK && len == 0);
    must(vt100_set_size(&mirror, 2, 8) == VT100_OK && !is_current(&mirror, viewer));
    must(vt100_update_scrolling(&mirror, viewer, &rows, &cols, &len) == VT100_OK && rows == 2);
    must(is_current(&mirror, viewer));
    must(vt100_leave(&mirror, viewer) == VT100_OK && !is_current(&mirror, viewer));
    vt100_free(&mirror);
}

/* A run of a character is written with REP (ECMA-48, 8.3.103) if the options allow it. */
static void repeated(void) {
    vt100_handle parser = VT100_EMPTY, before = VT100_EMPTY, mirror = VT100_EMPTY;
    uint64_t viewer;
    uint16_t rows, cols;
    size_t len;
    must(vt100_parser_new(2, 20, 0, 0, &parser) == VT100_OK);
    must(vt100_save(&parser, &before) == VT100_OK);
    read_into(&parser, "----------");
    must(vt100_contents_diff_with(&parser, &before, VT100_DIFF_REPEAT, &len) == VT100_OK);
    must(is_text(&parser, len, "-\x1b[9b"));
    must(vt100_contents_diff_with(&parser, &before, VT100_DIFF_SCROLL, &len) == VT100_OK);
    must(is_text(&parser, len, "----------"));
    must(vt100_mirror_new(2, 20, 0, &mirror) == VT100_OK);
    must(vt100_join(&mirror, &viewer) == VT100_OK);
    must(vt100_update_with(&mirror, viewer, VT100_DIFF_REPEAT, &rows, &cols, &len) == VT100_OK);
    must(rows == 2 && cols == 20);
    read_into(&mirror, "----------");
    must(vt100_update_with(&mirror, viewer, VT100_DIFF_REPEAT, &rows, &cols, &len) == VT100_OK);
    must(rows == 0 && is_text(&mirror, len, "-\x1b[9b"));
    vt100_free(&mirror);
    vt100_free(&before);
    vt100_free(&parser);
}

/* VT100_DIFF_REPEAT_ASCII has no effect on other characters, nor beside VT100_DIFF_REPEAT. */
static void repeated_ascii(void) {
    static const struct {
        uint8_t options;
        const char *text;
    } diffs[] = {
        {0, "----------\r\n\xe2\x94\x80\xe2\x94\x80\xe2\x94\x80\xe2\x94\x80"},
        {VT100_DIFF_REPEAT_ASCII, "-\x1b[9b\r\n\xe2\x94\x80\xe2\x94\x80\xe2\x94\x80\xe2\x94\x80"},
        {VT100_DIFF_REPEAT, "-\x1b[9b\r\n\xe2\x94\x80\x1b[3b"},
        {VT100_DIFF_REPEAT | VT100_DIFF_REPEAT_ASCII, "-\x1b[9b\r\n\xe2\x94\x80\x1b[3b"},
        {0xf0, "----------\r\n\xe2\x94\x80\xe2\x94\x80\xe2\x94\x80\xe2\x94\x80"},
    };
    vt100_handle parser = VT100_EMPTY, before = VT100_EMPTY;
    size_t len;
    must(vt100_parser_new(2, 20, 0, 0, &parser) == VT100_OK);
    must(vt100_save(&parser, &before) == VT100_OK);
    read_into(&parser, diffs[0].text);
    for (size_t i = 0; i < sizeof diffs / sizeof *diffs; i++) {
        must(vt100_contents_diff_with(&parser, &before, diffs[i].options, &len) == VT100_OK);
        must(is_text(&parser, len, diffs[i].text));
    }
    vt100_free(&before);
    vt100_free(&parser);
}

/* A portable update, redraw or diff, resets the attributes between dim and bold. */
static void portable_updates(void) {
    vt100_handle mirror = VT100_EMPTY;
    uint64_t first = 0, second = 0;
    uint16_t rows, cols;
    size_t len;
    must(vt100_mirror_new(2, 20, 0, &mirror) == VT100_OK);
    must(vt100_join(&mirror, &first) == VT100_OK && vt100_join(&mirror, &second) == VT100_OK);
    read_into(&mirror, "\x1b[2ma\x1b[22;1mb");
    must(vt100_update_with(&mirror, first, VT100_PORTABLE, &rows, &cols, &len) == VT100_OK);
    must(rows == 2 && is_text(&mirror, len, "\x1b[?25h\x1b[m\x1b[H\x1b[J\x1b[2ma\x1b[m\x1b[1mb"));
    must(vt100_update_with(&mirror, second, 0xf0, &rows, &cols, &len) == VT100_OK);
    must(rows == 2 && is_text(&mirror, len, "\x1b[?25h\x1b[m\x1b[H\x1b[J\x1b[2ma\x1b[1mb"));
    read_into(&mirror, "\x1b[22;2mc");
    must(vt100_update(&mirror, first, &rows, &cols, &len) == VT100_OK);
    must(rows == 0 && is_text(&mirror, len, "\x1b[2mc"));
    must(vt100_update_with(&mirror, second, VT100_PORTABLE, &rows, &cols, &len) == VT100_OK);
    must(rows == 0 && is_text(&mirror, len, "\x1b[m\x1b[2mc"));
    vt100_free(&mirror);
}

/* Portable output resets the attributes between dim and bold, and moves to an absolute position. */
static void portable(void) {
    static const struct {
        const char *input, *redraw, *portable;
    } screens[] = {
        {"\x1b[2ma\x1b[22;1mb", "\x1b[2ma\x1b[1mb", "\x1b[2ma\x1b[m\x1b[1mb"},
        {"abcd\r\nxxxxx\x1b[A", "abcd\r\nxxxxx\x1b[1;5H \x1b""7\b\x1b[X\x1b""8",
         "abcd\r\nxxxxx\x1b[1;5H \x1b""7\x1b[1;5H\x1b[X\x1b""8"},
    };
    for (size_t i = 0; i < sizeof screens / sizeof *screens; i++) {
        vt100_handle parser = VT100_EMPTY, before = VT100_EMPTY;
        size_t len;
        char text[64];
        must(vt100_parser_new(2, 5, 0, 0, &parser) == VT100_OK);
        must(vt100_save(&parser, &before) == VT100_OK);
        read_into(&parser, screens[i].input);
        must(vt100_contents_diff_with(&parser, &before, VT100_PORTABLE, &len) == VT100_OK);
        must(is_text(&parser, len, screens[i].portable));
        must(vt100_contents_diff_with(&parser, &before, 0, &len) == VT100_OK);
        must(is_text(&parser, len, screens[i].redraw));
        snprintf(text, sizeof text, "\x1b[?25h\x1b[m\x1b[H\x1b[J%s", screens[i].portable);
        must(vt100_contents_formatted_with(&parser, VT100_PORTABLE, &len) == VT100_OK);
        must(is_text(&parser, len, text));
        snprintf(text, sizeof text, "\x1b[?25h\x1b[m\x1b[H\x1b[J%s", screens[i].redraw);
        must(vt100_contents_formatted_with(&parser, 0xf7, &len) == VT100_OK);
        must(is_text(&parser, len, text));
        vt100_free(&before);
        vt100_free(&parser);
    }
}

/* A state with options is a redraw or a diff with options, followed by the sequences for modes. */
static void state_with_options(void) {
    static const struct {
        uint8_t options;
        const char *text;
    } diffs[] = {
        {0, "----------\r\n\x1b[2ma\x1b[1mb\x1b=\x1b[?2004h"},
        {VT100_DIFF_REPEAT, "-\x1b[9b\r\n\x1b[2ma\x1b[1mb\x1b=\x1b[?2004h"},
        {VT100_PORTABLE, "----------\r\n\x1b[2ma\x1b[m\x1b[1mb\x1b=\x1b[?2004h"},
        {VT100_PORTABLE | VT100_DIFF_REPEAT_ASCII,
         "-\x1b[9b\r\n\x1b[2ma\x1b[m\x1b[1mb\x1b=\x1b[?2004h"},
    };
    vt100_handle parser = VT100_EMPTY, before = VT100_EMPTY;
    size_t len;
    must(vt100_parser_new(2, 20, 0, 0, &parser) == VT100_OK);
    must(vt100_save(&parser, &before) == VT100_OK);
    must(vt100_state_diff_with(&parser, &before, 0xff, &len) == VT100_OK && len == 0);
    read_into(&parser, "\x1b=\x1b[?2004h----------\r\n\x1b[2ma\x1b[22;1mb");
    for (size_t i = 0; i < sizeof diffs / sizeof *diffs; i++) {
        must(vt100_state_diff_with(&parser, &before, diffs[i].options, &len) == VT100_OK);
        must(is_text(&parser, len, diffs[i].text));
    }
    must(vt100_state_formatted_with(&parser, VT100_PORTABLE, &len) == VT100_OK);
    must(is_text(&parser, len,
                 "\x1b[?25h\x1b[m\x1b[H\x1b[J----------\r\n\x1b[2ma\x1b[m\x1b[1mb"
                 "\x1b=\x1b[?1l\x1b[?2004h"));
    must(vt100_state_formatted_with(&parser, 0xf7, &len) == VT100_OK);
    must(is_text(&parser, len,
                 "\x1b[?25h\x1b[m\x1b[H\x1b[J----------\r\n\x1b[2ma\x1b[1mb"
                 "\x1b=\x1b[?1l\x1b[?2004h"));
    vt100_free(&before);
    vt100_free(&parser);
}

/*
 * The bytes of an unfinished command are counted until it ends; those of other sequences and
 * strings are not.
 */
static void pending(void) {
    static const struct {
        const char *bytes;
        size_t len;
    } steps[] = {
        {"ab\x1b", 0}, {"]", 0}, {"2;ti", 4}, {"\r\n", 4}, {"\xc3\xa4", 6}, {"\x18", 0},
        {"\x1b]0;title", 7}, {"\a", 0}, {"\x1b]0;", 2}, {"\x1b", 0}, {"\\", 0},
        {"\x1bPtitle", 0}, {"\x1b\\\x1b[1;2", 0}, {"m\xe2\x8c", 0},
    };
    vt100_handle parser = made(2, 4, 0);
    size_t len = 99;
    must(vt100_pending_len(&parser, &len) == VT100_OK && len == 0);
    for (size_t i = 0; i < sizeof steps / sizeof *steps; i++) {
        read_into(&parser, steps[i].bytes);
        len = 99;
        must(vt100_pending_len(&parser, &len) == VT100_OK && len == steps[i].len);
    }
    read_into(&parser, "\x1b]2;");
    for (size_t i = 0; i < 1000; i++) read_into(&parser, "x");
    must(vt100_pending_len(&parser, &len) == VT100_OK && len == 1002);
    must(heap_bytes > 0 && has_contents(&parser, "ab"));
    vt100_free(&parser);
}

/*
 * A parser and a mirror are in ground state where no character, sequence or string is half read, however
 * it is ended: by its last byte, CAN, another ESC, or a byte that no character goes on with.
 */
static void ground(void) {
    static const struct {
        const char *bytes;
        uint8_t is;
    } steps[] = {
        {"ab", 1}, {"\x1b", 0}, {"[", 0}, {"31", 0}, {"\n", 0}, {";1", 0}, {"m", 1},
        {"\x1b(", 0}, {"B", 1}, {"\x1b[?25", 0}, {"\x18", 1}, {"\x1b[1", 0}, {"\x1b", 0}, {"7", 1},
        {"\x1b]0;title", 0}, {"\a", 1}, {"\x1b]0;title\x1b", 0}, {"\\", 1}, {"\x1bPdata", 0},
        {"\x9c", 0}, {"\x1b\\", 1}, {"\x1b_apc\x1a", 1}, {"\xe2", 0}, {"\x8c", 0}, {"\x9a", 1},
        {"\xf0\x9f", 0}, {"x", 1}, {"\xe2\x8c", 0}, {"\x1b", 0}, {"c", 1}, {"\xff", 1}, {"", 1},
    };
    vt100_handle parser = made(2, 4, 0), mirror = VT100_EMPTY;
    must(vt100_mirror_new(2, 4, 0, &mirror) == VT100_OK);
    must(vt100_is_ground(&parser, &answer) == VT100_OK && answer == 1);
    must(vt100_is_ground(&mirror, &answer) == VT100_OK && answer == 1);
    for (size_t i = 0; i < sizeof steps / sizeof *steps; i++) {
        read_into(&parser, steps[i].bytes);
        read_into(&mirror, steps[i].bytes);
        answer = 9;
        must(vt100_is_ground(&parser, &answer) == VT100_OK && answer == steps[i].is);
        answer = 9;
        must(vt100_is_ground(&mirror, &answer) == VT100_OK && answer == steps[i].is);
    }
    vt100_free(&parser);
    vt100_free(&mirror);
}

/*
 * RIS and ED 3 are counted, also with a private marker, leading zeros or more parameters, on the
 * alternate screen, and with nothing to erase; each when its last byte is processed. Others are not.
 */
static void erasures(void) {
    static const struct {
        const char *bytes;
        uint64_t count;
    } steps[] = {
        {"a\r\nb\r\nc\r\n", 0}, {"\x1b[3", 0}, {"J", 1}, {"\x1b[?3J", 2}, {"\x1b[0003;1J", 3},
        {"\x1b[3:9J", 4}, {"\x1b", 4}, {"c", 5}, {"\x1b[3J\x1b[3J\x1b" "c", 8}, {"\x1b[?1049h\x1b[3J", 9},
        {"\x1b[J\x1b[0J\x1b[1J\x1b[2J\x1b[4J\x1b[33J\x1b[;3J\x1b[3K\x1b[3j", 9},
        {"\x1b[>3J\x1b[3 J\x1b[!3J\x1b(c\x1b[c\x1b[3\x18J", 9}, {"\x1b]0;\x1b[3J", 10},
        {"\x1bP\x1b[3J", 11}, {"\x1bP3Jc\x1b\\c[3J", 11}, {"\xe2\x8c\x1b[3\nJ", 12},
    };
    uint64_t count = 99;
    vt100_handle parser = made(2, 4, 9);
    must(vt100_scrollback_erasures(&parser, &count) == VT100_OK && count == 0);
    for (size_t i = 0; i < sizeof steps / sizeof *steps; i++) {
        read_into(&parser, steps[i].bytes);
        must(vt100_scrollback_erasures(&parser, &count) == VT100_OK && count == steps[i].count);
    }
    must(vt100_clear_scrollback(&parser) == VT100_OK && vt100_set_size(&parser, 3, 5) == VT100_OK);
    must(vt100_scrollback_erasures(&parser, &count) == VT100_OK && count == 12);
    vt100_free(&parser);
}

/* What a kept row must be: its text, its number of cells, and whether it is wrapped. */
struct kept {
    const char *text;
    size_t count;
    uint8_t wrapped;
};

/* Checks the rows that a screen keeps, with room for each number of cells up to one more than needed. */
static void has_kept(vt100_handle *handle, const struct kept *kept, size_t count) {
    vt100_cell cells[8];
    size_t len = 99;
    for (size_t row = 0; row < count; row++) {
        for (size_t room = 0; room <= kept[row].count + 1; room++) {
            uint8_t wrapped = 9;
            size_t stored = room < kept[row].count ? room : kept[row].count, at = 0;
            memset(cells, 0xaa, sizeof cells);
            must(vt100_get_row_cells(handle, row, cells, room, &len, &wrapped) == VT100_OK);
            must(len == kept[row].count && wrapped == kept[row].wrapped);
            for (size_t col = 0; col < stored; col++) {
                must(strncmp(kept[row].text + at, (char *)cells[col].text, cells[col].len) == 0);
                at += cells[col].len;
            }
            if (stored == len) must(at == strlen(kept[row].text));
            must(((uint8_t *)&cells[stored])[0] == 0xaa && cells[stored].len == 0xaa);
        }
        must(vt100_row_contents(handle, row, &len) == VT100_OK && is_text(handle, len, kept[row].text));
    }
    must(vt100_get_row_cells(handle, count, cells, 8, &len, &answer) == VT100_BAD_ARGUMENT);
    must(vt100_get_row_cells(handle, SIZE_MAX, cells, 8, &len, &answer) == VT100_BAD_ARGUMENT);
    must(vt100_row_contents(handle, count, &len) == VT100_BAD_ARGUMENT);
}

/*
 * The rows of scrollback are read without displaying them, and without their blank cells; those of the
 * page come after them, whether scrollback is displayed or not. The alternate page has no others.
 */
static void kept_rows(void) {
    static const struct kept main_rows[] = {
        {"ab", 2, 0}, {"wxyz", 4, 1}, {"\xe4\xb8\xad!", 3, 0}, {"", 0, 0}, {"cd", 4, 0}, {"e", 4, 0},
    };
    static const struct kept displayed[] = {
        {"ab", 2, 0}, {"wxyz", 4, 1}, {"\xe4\xb8\xad!", 4, 0}, {"", 4, 0}, {"cd", 4, 0}, {"e", 4, 0},
    };
    static const struct kept alternate[] = {{"page", 4, 0}, {"", 4, 0}};
    vt100_handle parser = made(2, 4, 9), copy = VT100_EMPTY;
    read_into(&parser, "ab\r\nwxyz\xe4\xb8\xad!\r\n\r\ncd\r\ne");
    has_kept(&parser, main_rows, 6);
    must(has_contents(&parser, "cd\ne"));
    must(vt100_save(&parser, &copy) == VT100_OK);
    must(vt100_set_scrollback(&parser, 2) == VT100_OK);
    has_kept(&parser, displayed, 6);
    must(has_contents(&parser, "\xe4\xb8\xad!"));
    has_kept(&copy, main_rows, 6);
    read_into(&parser, "\x1b[?1049h\x1b[Hpage");
    has_kept(&parser, alternate, 2);
    read_into(&parser, "\x1b[?1049l");
    has_kept(&parser, displayed, 6);
    vt100_free(&parser);
    vt100_free(&copy);
}

/* The sequences for real terminals select the full scroll region, and reset all input modes. */
static void terminals(void) {
    static const char *const modes[] = {"9", "1000", "1002", "1003", "1005", "1006"};
    char mode[16];
    size_t len = 99;
    vt100_handle parser = made(3, 10, 0), fresh = made(3, 10, 0);
    read_into(&parser, "ab\x1b[2;3r\x1b[?6h\x1b]2;title" VT100_TERMINAL_SETUP);
    read_into(&parser, "cd\x1b[3;1H\n");
    must(has_contents(&parser, ""));
    must(strstr(VT100_TERMINAL_SETUP, "\x1b[?2026l\x1b[?42l") != NULL);
    must(strstr(VT100_TERMINAL_SETUP, "\x1b[8h\x1b[0 k") != NULL);
    read_into(&parser, "\x1b[H");
    for (size_t i = 0; i < sizeof modes / sizeof *modes; i++) {
        snprintf(mode, sizeof mode, "\x1b[?%sh", modes[i]);
        read_into(&parser, "\x1b[1;31m\x1b[?25l\x1b=\x1b[?1;2004h\x1b[5 q");
        read_into(&parser, mode);
        read_into(&parser, VT100_TERMINAL_RESTORE);
        must(vt100_state_diff(&parser, &fresh, &len) == VT100_OK && len == 0);
    }
    vt100_free(&parser);
    vt100_free(&fresh);
}

/* The version of the library is that of the header. */
static void version(void) {
    char text[16];
    snprintf(text, sizeof text, "%d.%d", VT100_VERSION_MAJOR, VT100_VERSION_MINOR);
    must(strcmp(vt100_version(), text) == 0);
}

int main(void) {
    all_cells();
    steady();
    shown_copies();
    viewers();
    repeated();
    repeated_ascii();
    portable();
    state_with_options();
    portable_updates();
    pending();
    ground();
    erasures();
    kept_rows();
    terminals();
    version();
    must(heap_live == 0);
    return 0;
}
