/*
 * random FIRST COUNT: gives random inputs to most functions, from the input numbered FIRST on. Prints
 * a digest of all results up to then after every 1000 inputs and at the end. The digests are the same
 * for each build of the library, whatever the processor and the compiler.
 */
#include "lines.h"

#include <stdio.h>
#include <stdlib.h>
#include <string.h>

#define LENGTH(array) ((uint32_t)(sizeof(array) / sizeof *(array)))

/* ---- random numbers and the digest */

static uint64_t seed, digest = 0xcbf29ce484222325u;

/* Returns a random number below `limit`. */
static uint32_t draw(uint32_t limit) {
    seed = seed * 6364136223846793005u + 1442695040888963407u;
    return (uint32_t)(seed >> 33) % limit;
}

static void note_bytes(const void *bytes, size_t len) {
    const uint8_t *each = bytes;
    for (size_t i = 0; i < len; i++) digest = (digest ^ each[i]) * 0x100000001b3u;
}

static void note(uint64_t number) {
    uint8_t bytes[8];
    for (int i = 0; i < 8; i++) bytes[i] = (uint8_t)(number >> 8 * i);
    note_bytes(bytes, sizeof bytes);
}

/* ---- inputs */

static uint8_t input[4096];
static size_t input_len;

static void put(const void *bytes, size_t len) {
    if (len > sizeof input - input_len) return;
    memcpy(input + input_len, bytes, len);
    input_len += len;
}

static void put_word(void) {
    static const char *const words[] = {
        "the", "of", "----------", "aaaaaaaaaaaaaaaaaaaa", "                ", "\xc3\xa9", "e\xcc\x81",
        "\xe5\xad\x97\xe5\xae\xbd", "\xe2\x9c\x88\xef\xb8\x8f", "\xf0\x9f\x91\xa9\xe2\x80\x8d\xf0\x9f\x91\xa7",
        "\xf0\x9f\x87\xa9\xf0\x9f\x87\xaa", "\xe0\xb8\x81\xe0\xb8\xb3", "\xff", "\xe5\xad",
        "x\xcc\x80\xcc\x81\xcc\x82\xcc\x83\xcc\x84\xcc\x85\xcc\x86\xcc\x87\xcc\x88\xcc\x89\xcc\x8a\xcc\x8b"};
    const char *word = words[draw(LENGTH(words))];
    put(word, strlen(word));
}

static void put_control(void) {
    static const char *const controls[] = {
        "\r\n", "\n", "\r", "\b", "\t", "\a", "\x05", "\x18", "\xc2\x85", "\x1b" "7", "\x1b" "8", "\x1bM", "\x1b" "D",
        "\x1bg", "\x1b=", "\x1b>", "\x1b" "c", "\x1b#8", "\x1b(0", "\x1b(B", "\x0e", "\x0f", "\x1b[m", "\x1b[!p",
        "\x1b[?1049h", "\x1b[?1049l", "\x1b[?47h", "\x1b[?6h", "\x1b[?6l", "\x1b[?7h", "\x1b[?25l", "\x1b[?25h",
        "\x1b[?2004h", "\x1b[?1h", "\x1b[?9h", "\x1b[?1000h", "\x1b[?1003h", "\x1b[?1006h", "\x1b[3 q",
        "\x1b]0;title\a", "\x1b]2;t\xc3\xa9\x1b\\", "\x1b]52;c;YWJj\a", "\x1b]52;p;?\a", "\x1b]8;;http\x1b\\",
        "\x1bP1;2|abc\x1b\\", "\x1b_x\x1b\\"};
    const char *control = controls[draw(LENGTH(controls))];
    put(control, strlen(control));
}

static void put_sequence(void) {
    static const char finals[] = "ABCDEFGHIJKLMPSTXZ@`abcdefghlmnqrstu";
    static const char *const prefixes[] = {"", "", "", "", "?", ">", "=", "!"};
    char sequence[64];
    int len = sprintf(sequence, "\x1b[%s", prefixes[draw(LENGTH(prefixes))]);
    uint32_t count = draw(4);
    for (uint32_t i = 0; i < count; i++) {
        const char *separator = i == 0 ? "" : draw(6) != 0 ? ";" : ":";
        uint32_t limit = draw(3) != 0 ? 30 : 70000;
        len += sprintf(sequence + len, "%s%u", separator, (unsigned)draw(limit));
    }
    sequence[len++] = finals[draw(LENGTH(finals) - 1)];
    put(sequence, (size_t)len);
}

static void put_color(void) {
    char sequence[64];
    unsigned what = draw(2) != 0 ? 38 : 48, kind = draw(2) != 0 ? 5 : 2;
    unsigned first = draw(256), second = draw(256), third = draw(256);
    int len = sprintf(sequence, "\x1b[%u;%u;%u;%u;%um", what, kind, first, second, third);
    put(sequence, (size_t)len);
}

static void put_bytes(void) {
    uint32_t count = 1 + draw(8);
    for (uint32_t i = 0; i < count; i++) {
        uint8_t byte = (uint8_t)draw(256);
        put(&byte, 1);
    }
}

static void make_input(void) {
    uint32_t steps = 1 + draw(24);
    input_len = 0;
    for (uint32_t i = 0; i < steps; i++) {
        uint32_t kind = draw(12);
        if (kind < 4) put_word();
        else if (kind < 6) put_control();
        else if (kind < 10) put_sequence();
        else if (kind == 10) put_color();
        else put_bytes();
    }
}

/* ---- the objects, and calls whose results are noted */

static vt100_handle parser, mirror, prev, shown, capture;
static uint64_t viewer;
static size_t len;

static void note_state(vt100_handle *handle, vt100_state *state) {
    memset(state, 0, sizeof *state);
    note(vt100_get_state(handle, state));
    note(state->rows);
    note(state->cols);
    note(state->cursor_row);
    note(state->cursor_col);
    note_bytes(&state->alternate_screen, 12);
    note_bytes(&state->fgcolor, 8);
    note(state->scrollback);
    note(state->scrollback_len);
    note(state->scrollback_capacity);
}

/* Notes the text in a handle, which a call that returned `status` has written. */
static void note_text(vt100_handle *handle, vt100_status status) {
    note(status);
    note(len);
    if (status != VT100_OK) return;
    uint8_t *text = malloc(len + 1);
    must(text != NULL);
    note(vt100_copy(handle, text, len));
    note_bytes(text, len);
    free(text);
}

static void note_texts(void) {
    note_text(&parser, vt100_contents(&parser, &len));
    note_text(&parser, vt100_contents_formatted(&parser, &len));
    note_text(&parser, vt100_contents_formatted_reset(&parser, &len));
    note_text(&parser, vt100_contents_formatted_basic(&parser, &len));
    note_text(&parser, vt100_contents_formatted_with(&parser, (uint8_t)draw(256), &len));
    note_text(&parser, vt100_state_formatted(&parser, &len));
    note_text(&parser, vt100_state_formatted_with(&parser, (uint8_t)draw(256), &len));
    note_text(&parser, vt100_cursor_state_formatted(&parser, &len));
    note_text(&parser, vt100_attributes_formatted(&parser, &len));
    note_text(&parser, vt100_input_mode_formatted(&parser, &len));
}

static void note_diffs(vt100_handle *before) {
    note_text(&parser, vt100_contents_diff(&parser, before, &len));
    note_text(&parser, vt100_contents_diff_scrolling(&parser, before, &len));
    note_text(&parser, vt100_contents_diff_with(&parser, before, (uint8_t)draw(256), &len));
    note_text(&parser, vt100_state_diff(&parser, before, &len));
    note_text(&parser, vt100_state_diff_with(&parser, before, (uint8_t)draw(256), &len));
    note_text(&parser, vt100_input_mode_diff(&parser, before, &len));
}

static void note_rows(const vt100_state *state, vt100_handle *before) {
    size_t ends[64] = {0};
    uint16_t start = (uint16_t)draw(state->cols), width = (uint16_t)draw(40);
    size_t room = draw(8) != 0 ? LENGTH(ends) : draw(4);
    note_text(&parser, vt100_rows(&parser, start, width, ends, room, &len));
    for (uint32_t i = 0; i < LENGTH(ends); i++) note(ends[i]);
    note_text(&parser, vt100_rows_formatted(&parser, start, width, ends, room, &len));
    for (uint32_t i = 0; i < LENGTH(ends); i++) note(ends[i]);
    note_text(&parser, vt100_rows_diff(&parser, before, start, width, ends, room, &len));
    for (uint32_t i = 0; i < LENGTH(ends); i++) note(ends[i]);
    uint16_t row = (uint16_t)draw(state->rows), end_row = (uint16_t)draw(state->rows), end_col = (uint16_t)draw(state->cols);
    note_text(&parser, vt100_contents_between(&parser, row, start, end_row, end_col, &len));
}

static void note_cells(const vt100_state *state) {
    size_t count = (size_t)state->rows * state->cols;
    vt100_cell *cells = calloc(count, sizeof *cells), cell = {.len = 0};
    uint8_t flag = 0;
    must(cells != NULL);
    note(vt100_get_all_cells(&parser, cells, count));
    note_bytes(cells, count * sizeof *cells);
    note(vt100_get_cells(&parser, (uint16_t)draw(state->rows + 1u), cells, state->cols));
    note_bytes(cells, state->cols * sizeof *cells);
    free(cells);
    uint16_t row = (uint16_t)draw(state->rows + 1u), col = (uint16_t)draw(state->cols + 1u);
    note(vt100_get_cell(&parser, row, col, &cell));
    note_bytes(&cell, sizeof cell);
    note(vt100_row_wrapped(&parser, (uint16_t)draw(state->rows + 1u), &flag));
    note(flag);
    note(vt100_is_steady(&parser, &flag));
    note(flag);
}

static void note_events(void) {
    uint8_t is_whole = 9;
    size_t count = 0;
    note(vt100_events(&parser, &count, &is_whole));
    note(is_whole);
    uint8_t *log = malloc(count + 1);
    must(log != NULL);
    note(vt100_copy_events(&parser, log, count));
    note_bytes(log, count);
    free(log);
    note(vt100_pending_len(&parser, &count));
    note(count);
    note_text(&capture, vt100_capture_row(&parser, 0, &capture, &len));
    if (draw(3) == 0) note(vt100_clear_events(&parser));
    if (draw(3) == 0) note(vt100_set_event_limit(&parser, draw(400)));
}

static void note_update(void) {
    uint16_t rows = 7, cols = 7;
    uint8_t is_current = 9;
    uint32_t kind = draw(3);
    note(vt100_mirror_is_current(&mirror, viewer, &is_current));
    note(is_current);
    if (kind == 0) note_text(&mirror, vt100_update(&mirror, viewer, &rows, &cols, &len));
    else if (kind == 1) note_text(&mirror, vt100_update_scrolling(&mirror, viewer, &rows, &cols, &len));
    else note_text(&mirror, vt100_update_with(&mirror, viewer, (uint8_t)draw(256), &rows, &cols, &len));
    note(rows);
    note(cols);
}

/* Notes what the functions that read a captured text find in it. */
static void note_capture(uint16_t cols) {
    size_t start = 7, end = 7;
    note_text(&capture, vt100_capture_screen(&parser, &capture, &len));
    uint8_t *text = malloc(len + 1);
    must(text != NULL);
    size_t count = vt100_copy(&capture, text, len);
    note(vt100_next_plain(text, count, 0, &start, &end));
    note(start);
    note(end);
    note(vt100_next_row(text, count, cols, 0, &end, &start));
    note(end);
    note(start == SIZE_MAX ? UINT64_MAX : start);
    free(text);
}

/* Processes the input as a whole, byte by byte, up to each event, or until the log is half full. */
static void process(void) {
    uint32_t way = draw(4);
    size_t at = 0, used;
    if (way == 0) note(vt100_process(&parser, input, input_len));
    while (way == 1 && at < input_len) note(vt100_process(&parser, input + at++, 1));
    while (way >= 2 && at < input_len) {
        used = 77;
        note(way == 2 ? vt100_process_until(&parser, input + at, input_len - at, &used)
                      : vt100_process_until_full(&parser, input + at, input_len - at, &used));
        note(used);
        must(used > 0 && used <= input_len - at);
        at += used;
    }
    note(vt100_process(&mirror, input, input_len));
}

static void change_objects(void) {
    if (draw(4) == 0) {
        uint16_t rows = (uint16_t)(1 + draw(12)), cols = (uint16_t)(1 + draw(24));
        note(vt100_set_size(&parser, rows, cols));
        note(vt100_set_size(&mirror, rows, cols));
    }
    if (draw(6) == 0) note(vt100_swap(&parser, &prev));
    if (draw(6) == 0) note(vt100_clear_scrollback(&parser));
}

static void run_round(void) {
    vt100_state state;
    make_input();
    vt100_free(&prev);
    vt100_free(&shown);
    note(vt100_save(&parser, &prev));
    note(vt100_shown_copy(&parser, &shown));
    process();
    note_events();
    if (draw(3) == 0) note(vt100_set_scrollback(&parser, draw(8)));
    note_state(&parser, &state);
    note_cells(&state);
    note_texts();
    vt100_handle *before = draw(2) != 0 ? &prev : &shown;
    note_diffs(before);
    note_rows(&state, before);
    note_update();
    note_capture(state.cols);
    change_objects();
    note(vt100_kind(&parser));
    note(vt100_kind(&prev));
}

static void run(uint64_t number) {
    seed = number * 0x9e3779b97f4a7c15u + 12345;
    uint16_t rows = (uint16_t)(1 + draw(draw(8) != 0 ? 12 : 30));
    uint16_t cols = (uint16_t)(1 + draw(draw(8) != 0 ? 24 : 100));
    size_t capacity = draw(2) != 0 ? draw(20) : 0;
    note(vt100_parser_new(rows, cols, capacity, (uint16_t)draw(0x4000), &parser));
    note(vt100_mirror_new(rows, cols, capacity, &mirror));
    note(vt100_capture_new(&capture));
    note(vt100_join(&mirror, &viewer));
    note(viewer);
    uint32_t rounds = 1 + draw(4);
    for (uint32_t i = 0; i < rounds; i++) run_round();
    note(vt100_leave(&mirror, viewer));
    vt100_free(&parser);
    vt100_free(&mirror);
    vt100_free(&prev);
    vt100_free(&shown);
    vt100_free(&capture);
}

int main(int argc, char **argv) {
    must(argc == 3);
    uint64_t first = strtoul(argv[1], NULL, 10), count = strtoul(argv[2], NULL, 10);
    for (uint64_t number = 0; number < count; number++) {
        run(first + number);
        if ((number + 1) % 1000 != 0 && number + 1 != count) continue;
        printf("%lu %08lx%08lx\n", (unsigned long)(number + 1), (unsigned long)(digest >> 32),
            (unsigned long)(digest & 0xffffffffu));
    }
    return 0;
}
