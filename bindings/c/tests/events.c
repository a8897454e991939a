/*
 * events: tests of the log of a parser's events: where vt100_process_until and
 * vt100_process_until_full stop, what the record of a row contains, and what a log with a limit
 * keeps, loses and allocates.
 */
#include "heap_refusing.h"
#include "lines.h"

#include <string.h>

enum { HEAD = 17, BELLS = 1 << 0, ROWS = 1 << 12, BARE_ROWS = ROWS | VT100_ROWS_WITHOUT_TEXT };

static size_t len;
static uint8_t is_whole;

static vt100_handle made(uint16_t rows, uint16_t cols, uint16_t wanted) {
    vt100_handle parser = VT100_EMPTY;
    must(vt100_parser_new(rows, cols, 0, wanted, &parser) == VT100_OK);
    return parser;
}

/* Processes bytes up to the first event, and returns how many were processed. */
static size_t until(vt100_handle *parser, const char *bytes) {
    size_t used = 4711;
    must(vt100_process_until(parser, (const uint8_t *)bytes, strlen(bytes), &used) == VT100_OK);
    return used;
}

/* Processes bytes until the log is half full, and returns how many were processed. */
static size_t until_full(vt100_handle *parser, const char *bytes) {
    const uint8_t *start = (const uint8_t *)bytes;
    size_t used = 4711;
    must(vt100_process_until_full(parser, start, strlen(bytes), &used) == VT100_OK);
    return used;
}

/* Checks that the records take `bytes` bytes, and whether the log is whole. */
static void has_records(vt100_handle *parser, size_t bytes, int whole) {
    must(vt100_events(parser, &len, &is_whole) == VT100_OK && len == bytes && is_whole == whole);
}

/*
 * A row that is logged with its text stops processing. Rows without text do not; a later event
 * does.
 */
static void rows(void) {
    uint8_t records[HEAD + 1];
    vt100_handle parser = made(2, 4, BELLS | ROWS);
    must(until(&parser, "a\r\nb\r\nc\r\nd\ae") == 6);
    has_records(&parser, HEAD + 1, 1);
    must(vt100_copy_events(&parser, records, sizeof records) == HEAD + 1 && records[HEAD] == 'a');
    vt100_free(&parser);

    parser = made(2, 4, BELLS | BARE_ROWS);
    must(until(&parser, "a\r\nb\r\nc\r\nd\ae") == 11);
    has_records(&parser, 3 * HEAD, 1);
    vt100_handle capture = VT100_EMPTY;
    must(vt100_capture_new(&capture) == VT100_OK);
    for (size_t row = 0; row < 2; row++) {
        must(vt100_capture_row(&parser, row, &capture, &len) == VT100_OK && len == 1 + row);
        must(vt100_copy(&capture, records, sizeof records) == 1 + row);
        must(records[row] == "ab"[row]);
    }
    must(vt100_capture_row(&parser, 2, &capture, &len) == VT100_BAD_ARGUMENT);
    vt100_free(&capture);
    vt100_free(&parser);
}

/* Events are logged until the limit is reached, and are then lost until the log is cleared. */
static void limits(void) {
    vt100_handle parser = made(2, 4, BELLS | BARE_ROWS);
    must(vt100_set_event_limit(&parser, 2 * HEAD + 1) == VT100_OK);
    must(until(&parser, "\a\a") == 1 && until(&parser, "\a") == 1);
    must(until(&parser, "\a\a") == 1);
    has_records(&parser, 3 * HEAD, 1);
    must(until(&parser, "x\ay") == 2);
    has_records(&parser, 3 * HEAD, 0);
    must(until(&parser, "\ax") == 2);
    must(vt100_clear_events(&parser) == VT100_OK);
    has_records(&parser, 0, 1);
    must(until(&parser, "x\ay") == 2);
    has_records(&parser, HEAD, 1);

    /* A row of one cell counts as 57 bytes, so the second row reaches the limit. */
    must(vt100_set_event_limit(&parser, HEAD + 40 + 1) == VT100_OK);
    has_records(&parser, 0, 1);
    must(until(&parser, "\x1b[H\x1b[Ja\r\nb\r\nc\r\nd\r\ne") == 15);
    has_records(&parser, 2 * HEAD, 1);
    vt100_free(&parser);
}

/*
 * Events gather until half of the limit is reached, here by the fourth bell: three take 51 bytes.
 * Rows with text gather, too: each counts as 17 bytes, its text and 40 bytes for each cell.
 */
static void gathering(void) {
    vt100_handle parser = made(2, 4, BELLS | ROWS);
    must(vt100_set_event_limit(&parser, 2 * (3 * HEAD + 1)) == VT100_OK);
    must(until_full(&parser, "a\ab\ac\a") == 6);
    has_records(&parser, 3 * HEAD, 1);
    must(until_full(&parser, "d\ae\a") == 2);
    has_records(&parser, 4 * HEAD, 1);

    /* The log has reached half of its limit: each event stops, until it is lost. */
    must(until_full(&parser, "\x1b[H") == 3 && until_full(&parser, "\a\a") == 1);
    must(until_full(&parser, "\a\a") == 1 && until_full(&parser, "\a\a") == 1);
    has_records(&parser, 7 * HEAD, 1);
    must(until_full(&parser, "x\ay\a") == 2);
    has_records(&parser, 7 * HEAD, 0);
    must(until_full(&parser, "\ax") == 2);
    must(vt100_clear_events(&parser) == VT100_OK);

    /* The second of these rows counts as 58 bytes, and the first as 17. */
    must(until_full(&parser, "\x1b[H\x1b[J\r\nb\r\nc\r\nd\r\n") == 14);
    has_records(&parser, 2 * HEAD + 1, 1);
    must(vt100_clear_events(&parser) == VT100_OK);

    /* A log without room loses the first event, which stops once. */
    must(vt100_set_event_limit(&parser, 0) == VT100_OK);
    must(until_full(&parser, "x\ay\a") == 2 && until_full(&parser, "\ax") == 2);
    has_records(&parser, 0, 0);
    vt100_free(&parser);
}

typedef size_t processing(vt100_handle *parser, const char *bytes);

/*
 * Processes all bytes with the given function, and takes the records out of the log after each
 * call. Returns their total length, and stores the number of calls.
 */
static size_t records_of(const char *bytes, size_t limit, processing *process, uint8_t *records,
                         size_t room, size_t *calls) {
    vt100_handle parser = made(3, 4, 0x1fff);
    size_t at = 0, end = 0;
    must(vt100_set_event_limit(&parser, limit) == VT100_OK);
    for (*calls = 0; bytes[at] != 0; (*calls)++) {
        at += process(&parser, bytes + at);
        must(vt100_events(&parser, &len, &is_whole) == VT100_OK && is_whole && len <= room - end);
        must(vt100_copy_events(&parser, records + end, room - end) == len);
        end += len;
        must(vt100_clear_events(&parser) == VT100_OK);
    }
    vt100_free(&parser);
    return end;
}

/*
 * The records are the same, in the same order, whether events gather or not. The events count as 51
 * bytes (three blank rows), 17 (a bell), 24, 42 (an icon name and a title), 140, 140 (two rows) and
 * 34 bytes (two blank rows), each at another byte.
 */
static void same_records(void) {
    static const char text[] =
        "\x1b[3Sone\r\ntwo\a\r\n\x1b]2;a title\a\x1b]0;both\a\r\n\r\n\x1b[2Sx";
    static const struct {
        size_t limit, calls;
    } logs[] = {{200, 4}, {400, 2}, {900, 1}, {SIZE_MAX, 1}};
    uint8_t single[1024], gathered[1024];
    size_t calls, count = records_of(text, 200, until, single, sizeof single, &calls);
    must(calls == 6 && count == 3 * HEAD + HEAD + 24 + 2 * (HEAD + 4) + 2 * (HEAD + 3) + 2 * HEAD);
    for (size_t i = 0; i < sizeof logs / sizeof *logs; i++) {
        memset(gathered, 99, sizeof gathered);
        size_t limit = logs[i].limit;
        must(records_of(text, limit, until_full, gathered, sizeof gathered, &calls) == count);
        must(calls == logs[i].calls && memcmp(single, gathered, count) == 0);
    }
}

/* Some sequences each scroll 819 rows off, while all events are logged. */
static void hostile(void) {
    static const char repeat[] = "\x1b[65535b";
    uint8_t bytes[4096];
    for (size_t i = 0; i < sizeof bytes; i++) bytes[i] = (uint8_t)repeat[i % (sizeof repeat - 1)];
    size_t before = heap_bytes;
    vt100_handle parser = made(24, 80, 0x1fff);
    size_t fresh = heap_bytes - before;
    heap_peak = heap_bytes;
    must(vt100_process(&parser, (const uint8_t *)"x", 1) == VT100_OK);
    must(vt100_process(&parser, bytes, sizeof bytes) == VT100_OK);
    must(vt100_events(&parser, &len, &is_whole) == VT100_OK && is_whole == 0 && len > 0);
    must(heap_peak - before - fresh < (size_t)3 << 20);
    vt100_free(&parser);
    must(heap_bytes == before);
}

int main(void) {
    rows();
    limits();
    gathering();
    same_records();
    hostile();
    must(heap_live == 0);
    return 0;
}
