/*
 * show ROWS COLS plain|formatted|basic: reads what a program wrote to its terminal, and writes the
 * resulting screen: its text, a redraw for another terminal of that size, or its text and
 * attributes. The exit status is 0 on success, 1 on failure, and 2 if the arguments are invalid.
 */
#include <vt100.h>

#include <stdio.h>
#include <stdlib.h>
#include <string.h>

/* Returns the number in `word` if it has only digits and is from 1 to 65535, otherwise 0. */
static uint16_t size_of(const char *word) {
    unsigned long number = 0;
    if (*word == 0) return 0;
    for (; *word != 0; word++) {
        if (*word < '0' || *word > '9') return 0;
        number = number * 10 + (unsigned long)(*word - '0');
        if (number > UINT16_MAX) return 0;
    }
    return (uint16_t)number;
}

typedef vt100_status make_text(vt100_handle *handle, size_t *len);

static make_text *text_named(const char *word) {
    if (strcmp(word, "plain") == 0) return vt100_contents;
    if (strcmp(word, "formatted") == 0) return vt100_contents_formatted;
    if (strcmp(word, "basic") == 0) return vt100_contents_formatted_basic;
    return NULL;
}

static int failed(const char *what) {
    fprintf(stderr, "show: %s\n", what);
    return 1;
}

/* Reads all input into the parser. */
static int read_all(vt100_handle *parser) {
    uint8_t bytes[8192];
    size_t count;
    while ((count = fread(bytes, 1, sizeof bytes, stdin)) > 0) {
        if (vt100_process(parser, bytes, count) != VT100_OK) return failed("out of memory");
    }
    return ferror(stdin) ? failed("read failed") : 0;
}

/* Writes the text of the screen that `make` generates. */
static int write_text(vt100_handle *parser, make_text *make) {
    size_t len;
    if (make(parser, &len) != VT100_OK) return failed("out of memory");
    uint8_t *text = malloc(len + 1);
    if (text == NULL) return failed("out of memory");
    vt100_copy(parser, text, len);
    size_t written = fwrite(text, 1, len, stdout);
    free(text);
    return written < len || fflush(stdout) != 0 ? failed("write failed") : 0;
}

int main(int argc, char **argv) {
    uint16_t rows = argc == 4 ? size_of(argv[1]) : 0;
    uint16_t cols = argc == 4 ? size_of(argv[2]) : 0;
    make_text *make = argc == 4 ? text_named(argv[3]) : NULL;
    if (rows == 0 || cols == 0 || make == NULL) {
        fprintf(stderr, "usage: show ROWS COLS plain|formatted|basic\n");
        return 2;
    }
    vt100_handle parser = VT100_EMPTY;
    if (vt100_parser_new(rows, cols, 0, 0, &parser) != VT100_OK) return failed("out of memory");
    int status = read_all(&parser);
    if (status == 0) status = write_text(&parser, make);
    vt100_free(&parser);
    return status;
}
