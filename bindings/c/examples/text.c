/* Parses a line of output, and prints the text of the resulting screen. */
#include <vt100.h>

#include <stdio.h>
#include <stdlib.h>

int main(void) {
    static const uint8_t bytes[] = "this text is \x1b[31mRED\x1b[m";
    vt100_handle parser = VT100_EMPTY;
    uint8_t *text = NULL;
    size_t len = 0;
    int status = EXIT_FAILURE;
    if (vt100_parser_new(24, 80, 0, 0, &parser) == VT100_OK
        && vt100_process(&parser, bytes, sizeof bytes - 1) == VT100_OK
        && vt100_contents(&parser, &len) == VT100_OK
        && (text = malloc(len + 1)) != NULL) {
        text[vt100_copy(&parser, text, len)] = '\0';
        puts((const char *)text);
        status = EXIT_SUCCESS;
    }
    vt100_free(&parser);
    free(text);
    return status;
}
