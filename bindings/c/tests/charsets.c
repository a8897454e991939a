/*
 * charsets: tests of the translator of character sets: each character of DEC Special Graphics, input
 * that is split anywhere, buffers that are too short, and failing allocations.
 */
#include "heap_refusing.h"
#include "lines.h"

#include <stdio.h>
#include <stdlib.h>
#include <string.h>

/* The characters of the bytes 0x5F to 0x7E in DEC Special Graphics (DEC's manual of the VT220). */
static const char *const drawn[] = {
    " ",      "\u25c6", "\u2592", "\u2409", "\u240c", "\u240d", "\u240a", "\u00b0",
    "\u00b1", "\u2424", "\u240b", "\u2518", "\u2510", "\u250c", "\u2514", "\u253c",
    "\u23ba", "\u23bb", "\u2500", "\u23bc", "\u23bd", "\u251c", "\u2524", "\u2534",
    "\u252c", "\u2502", "\u2264", "\u2265", "\u03c0", "\u2260", "\u00a3", "\u00b7"};

static vt100_handle made(void) {
    vt100_handle charsets = VT100_EMPTY;
    must(vt100_charsets_new(&charsets) == VT100_OK && vt100_kind(&charsets) == VT100_CHARSETS);
    return charsets;
}

/* Translates `len` bytes, and checks that the rest of the buffer is unchanged. */
static size_t translate(vt100_handle *charsets, const char *bytes, size_t len, char *out) {
    size_t out_len = 4711;
    memset(out, '#', 3 * len + 1);
    vt100_status status = vt100_charsets_translate(charsets, (const uint8_t *)bytes, len,
                                                   (uint8_t *)out, 3 * len, &out_len);
    must(status == VT100_OK && out_len <= 3 * len);
    for (size_t i = out_len; i <= 3 * len; i++) must(out[i] == '#');
    out[out_len] = 0;
    return out_len;
}

/* Checks a translation, of the whole input and with the input split at each byte. */
static void check(const char *bytes, const char *wanted) {
    char out[400], parts[400];
    size_t len = strlen(bytes);
    vt100_handle charsets = made();
    must(translate(&charsets, bytes, len, out) == strlen(wanted) && strcmp(out, wanted) == 0);
    vt100_free(&charsets);
    for (size_t at = 0; at <= len; at++) {
        charsets = made();
        size_t first = translate(&charsets, bytes, at, parts);
        translate(&charsets, bytes + at, len - at, parts + first);
        must(strcmp(parts, wanted) == 0);
        vt100_free(&charsets);
    }
}

static void characters(void) {
    for (size_t i = 0; i < sizeof drawn / sizeof *drawn; i++) {
        char bytes[16], wanted[16];
        snprintf(bytes, sizeof bytes, "%c\033(0%c", (int)(0x5f + i), (int)(0x5f + i));
        snprintf(wanted, sizeof wanted, "%c\033(0%s", (int)(0x5f + i), drawn[i]);
        check(bytes, wanted);
    }
    check("\033(0A^\x7f\xc3\xa9\xff", "\033(0A^\x7f\xc3\xa9\xff");
}

static void sequences(void) {
    check("q\033)0q\016q\017q", "q\033)0q\016\u2500\017q");
    check("\033*0\033Nqq\033+0\033Oqq", "\033*0\033N\u2500q\033+0\033O\u2500q");
    check("\033*0\033nq\033(0\017q\033(Bq", "\033*0\033n\u2500\033(0\017\u2500\033(Bq");
    check("\033(0\0337\033(Bq\0338q\033cq", "\033(0\0337\033(Bq\0338\u2500\033cq");
    check("\033(0\033]0;q\aq\033Pq\033\\q", "\033(0\033]0;q\a\u2500\033Pq\033\\\u2500");
    check("\033(0\033[?1049h\033(Bq\033[?1049lq", "\033(0\033[?1049h\033(Bq\033[?1049l\u2500");
    check("\033(%0q\033-0\016q\017\033(0\033[!pq", "\033(%0q\033-0\016q\017\033(0\033[!pq");
}

/* A buffer that is too short, null pointers, and lengths that overflow, change nothing. */
static void arguments(void) {
    vt100_handle charsets = made();
    uint8_t out[8] = "#######";
    size_t len = 4711;
    const uint8_t *bytes = (const uint8_t *)"\033(0qq";
    must(vt100_charsets_translate(&charsets, bytes, 3, out, 8, &len) == VT100_BAD_ARGUMENT);
    must(vt100_charsets_translate(&charsets, bytes, 1, out, 2, &len) == VT100_BAD_ARGUMENT);
    must(len == 4711 && memcmp(out, "#######", 8) == 0);
    must(vt100_charsets_translate(&charsets, bytes + 3, 1, out, 3, &len) == VT100_OK);
    must(len == 1 && memcmp(out, "q######", 8) == 0);
    must(vt100_charsets_translate(&charsets, NULL, 0, NULL, 0, &len) == VT100_OK && len == 0);
    vt100_free(&charsets);
}

/* After a failed allocation, the same bytes have the same translation. */
static void allocations(void) {
    vt100_handle charsets = VT100_EMPTY;
    heap_refused = heap_allocations;
    must(vt100_charsets_new(&charsets) == VT100_OUT_OF_MEMORY && charsets.at == NULL);
    heap_refused = -1;
    charsets = made();
    uint8_t out[15] = "##############";
    size_t len = 4711;
    const uint8_t *bytes = (const uint8_t *)"\033(0qq";
    heap_refused = heap_allocations;
    must(vt100_charsets_translate(&charsets, bytes, 5, out, 15, &len) == VT100_OUT_OF_MEMORY);
    must(len == 4711 && memcmp(out, "##############", 15) == 0);
    heap_refused = -1;
    must(vt100_charsets_translate(&charsets, bytes + 3, 2, out, 15, &len) == VT100_OK && len == 2);
    must(vt100_charsets_translate(&charsets, bytes, 5, out, 15, &len) == VT100_OK && len == 9);
    must(memcmp(out, "\033(0\u2500\u2500", 9) == 0);
    vt100_free(&charsets);
}

int main(void) {
    characters();
    sequences();
    arguments();
    allocations();
    must(heap_live == 0);
    return 0;
}
