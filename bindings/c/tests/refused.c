/*
 * refused [FIRST]: runs a list of calls once without failures. Then, for each allocation of that
 * run, runs the calls once with that allocation failing, and once with all later allocations
 * failing as well. A call whose allocation fails must return VT100_OUT_OF_MEMORY and change nothing
 * that can be observed; when repeated, it must produce the same output as in the first run. A
 * parser or mirror for which an allocation failed while it parsed must return VT100_FAILED from
 * then on. If a record is lost, no records may follow it. At the end, all memory must have been
 * freed. FIRST is the number of allocations to try; by default, all are tried.
 */
#include "heap_refusing.h"
#include "lines.h"

#include <stdio.h>
#include <stdlib.h>
#include <string.h>

enum { STEPS = 40, UNTOUCHED = 4711 };

/* The objects of a run, and the texts that the first run generated. */
static vt100_handle parser, saved, copied, mirror, capture;
static struct text texts[STEPS];
static uint64_t viewer;
static int parser_failed, mirror_failed, is_first;
static long refusals, failures, gaps;

static const char *const begun =
    "\x1b]2;a title\a\x1b[1;31mbold\x1b[m \xe5\xae\xbd\xe5\xad\x97\r\n1\r\n22\r\n333\r\n4444\r\n"
    "55555";
static const char *const going_on =
    "\x1b]52;c;YWI=\a\r\n6\r\n7\r\n8\r\n\x1b[?1049h\x1b[2Jalternate\r\n\n\n\n\x1b[?1049lback"
    "\x1b[7;8z"
    "\x1b[3J\x1b[2;3Hx\x1b[1;3r\x1b[3;1Hone more row, longer than the others are\r\n\n\x1b]9;a;b\x1b\\";

static vt100_status read_into(vt100_handle *handle, const char *bytes) {
    return vt100_process(handle, (const uint8_t *)bytes, strlen(bytes));
}

/* Lets events gather in the log, which has room for all of them. Only a lost event stops. */
static vt100_status gather_from(const char *bytes) {
    const uint8_t *at = (const uint8_t *)bytes;
    size_t used = UNTOUCHED, recorded;
    uint8_t is_whole;
    for (size_t len = strlen(bytes); len > 0; at += used, len -= used) {
        vt100_status status = vt100_process_until_full(&parser, at, len, &used);
        if (status != VT100_OK) {
            must(used < len);
            return status;
        }
        must(vt100_events(&parser, &recorded, &is_whole) == VT100_OK);
        must(used > 0 && (used == len || (used < len && !is_whole)));
    }
    return VT100_OK;
}

/* ---- the call of a step, which stores the length of the text that it generates */

/*
 * Generates the texts of rows. Checks that the ends of all four rows are stored, or none if the
 * call fails.
 */
static vt100_status rows_of(int step, size_t *len) {
    size_t ends[16];
    for (size_t i = 0; i < 16; i++) ends[i] = UNTOUCHED;
    vt100_status status = step == 19 ? vt100_rows(&parser, 0, 9, ends, 16, len)
        : step == 20 ? vt100_rows_formatted(&parser, 1, 9, ends, 16, len)
                     : vt100_rows_diff(&parser, &saved, 0, 9, ends, 16, len);
    for (size_t i = 0; i < 16; i++) must((ends[i] != UNTOUCHED) == (status == VT100_OK && i < 4));
    return status;
}

static vt100_status texts_of(int step, size_t *len) {
    switch (step) {
    case 10: return vt100_contents(&parser, len);
    case 11: return vt100_contents_formatted(&parser, len);
    case 12: return vt100_contents_formatted_reset(&parser, len);
    case 13: return vt100_contents_formatted_basic(&parser, len);
    case 14: return vt100_state_formatted(&parser, len);
    case 15: return vt100_cursor_state_formatted(&parser, len);
    case 16: return vt100_attributes_formatted(&parser, len);
    case 17: return vt100_input_mode_formatted(&parser, len);
    case 18: return vt100_contents_between(&parser, 0, 1, 3, 4, len);
    case 21: return vt100_contents_diff(&parser, &saved, len);
    case 22: return vt100_contents_diff_scrolling(&parser, &saved, len);
    case 23: return vt100_state_diff(&parser, &saved, len);
    case 24: return vt100_input_mode_diff(&parser, &saved, len);
    default: return rows_of(step, len);
    }
}

static vt100_status call(int step, size_t *len) {
    uint16_t rows, cols;
    if (step >= 10 && step < 26) return texts_of(step, len);
    switch (step) {
    case 0: return vt100_parser_new(4, 9, 2, 0x1fff, &parser);
    case 1: return vt100_mirror_new(4, 9, 2, &mirror);
    case 2: return vt100_capture_new(&capture);
    case 3: return vt100_join(&mirror, &viewer);
    case 4: return vt100_update(&mirror, viewer, &rows, &cols, len);
    case 5: return read_into(&parser, begun);
    case 6: return vt100_save(&parser, &saved);
    case 7: return gather_from(going_on);
    case 8: return read_into(&mirror, begun);
    case 9: return vt100_update_scrolling(&mirror, viewer, &rows, &cols, len);
    case 26: return vt100_capture_row(&parser, 0, &capture, len);
    case 27: return vt100_capture_screen(&parser, &capture, len);
    case 28: return vt100_set_scrollback(&parser, 2);
    case 29: return vt100_set_size(&parser, 3, 12);
    case 30: return vt100_set_size(&parser, 6, 5);
    case 31: return vt100_screen_set_size(&saved, 5, 7);
    case 32: return vt100_set_size(&mirror, 2, 3);
    case 33: return vt100_update(&mirror, viewer, &rows, &cols, len);
    case 34: return vt100_leave(&mirror, viewer);
    case 35: return vt100_shown_copy(&parser, &copied);
    default: return vt100_row_contents(&parser, 1, len);
    }
}

static vt100_handle *handle_of(int step) {
    if (step == 26 || step == 27) return &capture;
    return step == 4 || step == 9 || step == 33 ? &mirror : &parser;
}

static int makes_text(int step) {
    return step == 4 || step == 9 || (step >= 10 && step < 28) || step == 33
        || step == 36;
}

/* Returns the observable state of all objects. No allocation fails in this function. */
static struct text shown(void) {
    struct text text = {0};
    long refused = heap_refused;
    heap_refused = -1;
    clear(&text);
    if (vt100_kind(&parser) != VT100_NONE) {
        add_size(&text, &parser);
        add_picture(&text, &parser);
        add_modes(&text, &parser);
        uint64_t count = UNTOUCHED;
        must(vt100_scrollback_erasures(&parser, &count) == VT100_OK);
        add(&text, "erasures %u\n", (unsigned)count);
    }
    if (vt100_kind(&saved) != VT100_NONE) add_picture(&text, &saved);
    if (vt100_kind(&copied) != VT100_NONE) add_picture(&text, &copied);
    add(&text, "%u %u\n", vt100_kind(&mirror), vt100_kind(&capture));
    heap_refused = refused;
    return text;
}

/* Checks that the text that a step generated, of `len` bytes, is the same as in the first run. */
static void compare(int step, size_t len) {
    uint8_t *bytes = malloc(len + 1);
    must(bytes != NULL && vt100_copy(handle_of(step), bytes, len + 1) == len);
    if (is_first) {
        clear(&texts[step]);
        add_hex(&texts[step], bytes, len);
    } else {
        struct text text = {0};
        add_hex(&text, bytes, len);
        must(strcmp(text.bytes, texts[step].bytes) == 0);
        free(text.bytes);
    }
    free(bytes);
}

static int reads(int step) { return step == 5 || step == 7 || step == 8; }

/*
 * Checks that the parser or mirror for which an allocation failed parses nothing more. Its state is
 * not compared.
 */
static void fail(int step) {
    vt100_handle *handle = step == 8 ? &mirror : &parser;
    failures++;
    if (step == 8) mirror_failed = 1;
    else parser_failed = 1;
    must(read_into(handle, "x") == VT100_FAILED);
    must(read_into(handle, "") == VT100_FAILED);
}

/* Takes a step, and repeats it without failures if it returned VT100_OUT_OF_MEMORY. */
static void take(int step) {
    int has_failed = step == 8 || step == 9 ? mirror_failed : parser_failed;
    struct text before = shown();
    size_t len = 0;
    long refused = heap_refused;
    vt100_status status = call(step, &len);
    if (reads(step) && has_failed) {
        must(status == VT100_FAILED);
    } else if (status == VT100_OUT_OF_MEMORY) {
        must(!is_first);
        refusals++;
        if (reads(step)) fail(step);
        struct text after = shown();
        must(reads(step) || strcmp(before.bytes, after.bytes) == 0);
        free(after.bytes);
        heap_refused = -1;
        if (!reads(step)) status = call(step, &len);
        heap_refused = refused;
    }
    must(reads(step) || status == VT100_OK || step == 26);
    if (step == 26 && status != VT100_OK) must(parser_failed || gaps > 0);
    else if (makes_text(step) && !parser_failed && !mirror_failed) {
        if (step != 27 || gaps == 0) compare(step, len);
    }
    free(before.bytes);
}

/* Checks that the log is that of the first run, or a prefix of it if records were lost. */
static void look_at_log(void) {
    static uint8_t whole[4096];
    static size_t whole_len;
    static uint8_t records[4096];
    size_t len = 0;
    uint8_t is_whole = 0;
    must(vt100_events(&parser, &len, &is_whole) == VT100_OK && len <= sizeof records);
    must(vt100_copy_events(&parser, records, sizeof records) == len);
    if (is_first) {
        must(is_whole == 1 && len > 100);
        memcpy(whole, records, len);
        whole_len = len;
    }
    if (is_whole == 0) gaps++;
    must(len <= whole_len && memcmp(records, whole, len) == 0);
    must(is_whole == 0 || parser_failed || len == whole_len);
}

static void run(void) {
    heap_allocations = 0;
    parser_failed = mirror_failed = 0;
    long gaps_before = gaps;
    gaps = 0;
    for (int step = 0; step < 37; step++) {
        take(step);
        if (step == 7) look_at_log();
    }
    gaps += gaps_before;
    vt100_free(&parser);
    vt100_free(&saved);
    vt100_free(&copied);
    vt100_free(&mirror);
    vt100_free(&capture);
    must(heap_live == 0);
}

int main(int argc, char **argv) {
    heap_refused = -1;
    is_first = 1;
    run();
    is_first = 0;
    long allocations = heap_allocations;
    long count = argc > 1 ? strtol(argv[1], NULL, 10) : allocations;
    if (count > allocations) count = allocations;
    for (long allocation = 0; allocation < count; allocation++) {
        for (int all = 0; all < 2; all++) {
            heap_refused = allocation;
            heap_refuses_all_behind = all;
            run();
        }
    }
    must(refusals > 0 && (count < allocations || (failures > 0 && gaps > 0)));
    printf("%ld of %ld allocations refused: %ld calls, %ld while reading, %ld records\n", count,
           allocations, refusals, failures, gaps);
    for (int step = 0; step < STEPS; step++) free(texts[step].bytes);
    return 0;
}
