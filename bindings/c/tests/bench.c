/*
 * bench PIECE WHAT ROWS COLS CAPACITY TIMES FILE: one parser processes FILE TIMES times, in chunks
 * of PIECE bytes, as `tool_bench process` does in chunks of 4096. WHAT says what is done in addition:
 *     process  nothing
 *     events   all events are logged, and copied after each chunk
 *     cell     a cell of the first row is fetched after each chunk
 */
#include "lines.h"

#include <stdio.h>
#include <stdlib.h>
#include <string.h>

static uint8_t *read_file(const char *name, size_t *len) {
    FILE *file = fopen(name, "rb");
    must(file != NULL && fseek(file, 0, SEEK_END) == 0);
    *len = (size_t)ftell(file);
    rewind(file);
    uint8_t *bytes = malloc(*len + 1);
    must(bytes != NULL && fread(bytes, 1, *len, file) == *len);
    fclose(file);
    return bytes;
}

typedef void look(vt100_handle *parser);

static void look_at_nothing(vt100_handle *parser) {
    (void)parser;
}

static void look_at_events(vt100_handle *parser) {
    static uint8_t *records;
    static size_t room;
    size_t len;
    uint8_t is_whole;
    must(vt100_events(parser, &len, &is_whole) == VT100_OK && is_whole);
    if (len > room) records = realloc(records, room = len);
    must(room == 0 || records != NULL);
    must(vt100_copy_events(parser, records, len) == len);
    must(vt100_clear_events(parser) == VT100_OK);
}

static void look_at_cell(vt100_handle *parser) {
    vt100_cell cell;
    must(vt100_get_cell(parser, 0, 3, &cell) == VT100_OK);
}

static look *look_named(const char *what) {
    if (strcmp(what, "process") == 0) return look_at_nothing;
    if (strcmp(what, "events") == 0) return look_at_events;
    must(strcmp(what, "cell") == 0);
    return look_at_cell;
}

int main(int argc, char **argv) {
    must(argc == 8);
    size_t piece = strtoul(argv[1], NULL, 10), capacity = strtoul(argv[5], NULL, 10), len;
    look *look = look_named(argv[2]);
    uint16_t rows = (uint16_t)atoi(argv[3]), cols = (uint16_t)atoi(argv[4]);
    uint16_t wanted = look == look_at_events ? VT100_WANTS_ALL : 0;
    uint8_t *bytes = read_file(argv[7], &len);
    vt100_handle parser = VT100_EMPTY;
    must(piece > 0 && vt100_parser_new(rows, cols, capacity, wanted, &parser) == VT100_OK);
    for (long times = strtol(argv[6], NULL, 10); times > 0; times--) {
        for (size_t at = 0; at < len; at += piece) {
            size_t count = len - at < piece ? len - at : piece;
            must(vt100_process(&parser, bytes + at, count) == VT100_OK);
            look(&parser);
        }
    }
    vt100_free(&parser);
    free(bytes);
    return 0;
}
