/*
 * mirror ROWS COLS EVERY: reads what a program writes to its terminal, and writes the escape
 * sequences that keep a second terminal in sync: a redraw, then a diff after every EVERY bytes and
 * one at the end. The exit status is 0 on success, 1 on failure, and 2 if the arguments are
 * invalid.
 */
#include <vt100.h>

#include <stdio.h>
#include <stdlib.h>

static int failed(const char *what) {
    fprintf(stderr, "mirror: %s\n", what);
    return 1;
}

/* Returns the number in `word` if it is from 1 to `bound`, otherwise 0. */
static unsigned long number_of(const char *word, unsigned long bound) {
    char *end;
    unsigned long number = *word >= '0' && *word <= '9' ? strtoul(word, &end, 10) : 0;
    return number > 0 && *end == 0 && number <= bound ? number : 0;
}

/* Writes the text that was last generated with this handle. */
static int write_text(vt100_handle *handle, size_t len) {
    uint8_t *text = malloc(len + 1);
    if (text == NULL) return failed("out of memory");
    vt100_copy(handle, text, len);
    size_t written = fwrite(text, 1, len, stdout);
    free(text);
    return written < len || fflush(stdout) != 0 ? failed("write failed") : 0;
}

/* Writes the diff from the screen `shown`, and stores a copy of the current screen in `shown`. */
static int update(vt100_handle *parser, vt100_handle *shown) {
    size_t len;
    if (vt100_contents_diff(parser, shown, &len) != VT100_OK) return failed("out of memory");
    if (write_text(parser, len) != 0) return 1;
    vt100_free(shown);
    return vt100_shown_copy(parser, shown) != VT100_OK ? failed("out of memory") : 0;
}

/* Writes a redraw, then a diff after every `every` bytes of input and one at the end. */
static int follow(vt100_handle *parser, vt100_handle *shown, size_t every) {
    size_t len, count, held = 0;
    uint8_t *bytes = malloc(every);
    if (bytes == NULL) return failed("out of memory");
    int status = vt100_contents_formatted(parser, &len) != VT100_OK
        || vt100_shown_copy(parser, shown) != VT100_OK;
    status = status != 0 ? failed("out of memory") : write_text(parser, len);
    while (status == 0 && (count = fread(bytes + held, 1, every - held, stdin)) > 0) {
        vt100_status read = vt100_process(parser, bytes + held, count);
        if (read != VT100_OK) status = failed("out of memory");
        held = (held + count) % every;
        if (status == 0 && held == 0) status = update(parser, shown);
    }
    if (status == 0 && ferror(stdin)) status = failed("read failed");
    if (status == 0 && held > 0) status = update(parser, shown);
    free(bytes);
    return status;
}

int main(int argc, char **argv) {
    unsigned long rows = argc == 4 ? number_of(argv[1], UINT16_MAX) : 0;
    unsigned long cols = argc == 4 ? number_of(argv[2], UINT16_MAX) : 0;
    unsigned long every = argc == 4 ? number_of(argv[3], UINT32_MAX) : 0;
    if (rows == 0 || cols == 0 || every == 0) {
        fprintf(stderr, "usage: mirror ROWS COLS EVERY\n");
        return 2;
    }
    vt100_handle parser = VT100_EMPTY, shown = VT100_EMPTY;
    if (vt100_parser_new((uint16_t)rows, (uint16_t)cols, 0, 0, &parser) != VT100_OK) {
        return failed("out of memory");
    }
    int status = follow(&parser, &shown, every);
    vt100_free(&shown);
    vt100_free(&parser);
    return status;
}
