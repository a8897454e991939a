/*
 * events ROWS COLS: reads what a program wrote to its terminal, and writes a line for each event:
 * each request of the program other than drawing, each unsupported sequence, and each row that
 * scrolled off the top. The exit status is 0 on success, 1 on failure, and 2 if the arguments
 * are invalid.
 */
#include <vt100.h>

#include <stdio.h>
#include <stdlib.h>

static const char *const names[] = {
    [VT100_EVENT_AUDIBLE_BELL] = "audible_bell",
    [VT100_EVENT_VISUAL_BELL] = "visual_bell",
    [VT100_EVENT_RESIZE] = "resize",
    [VT100_EVENT_SET_WINDOW_ICON_NAME] = "set_window_icon_name",
    [VT100_EVENT_SET_WINDOW_TITLE] = "set_window_title",
    [VT100_EVENT_COPY_TO_CLIPBOARD] = "copy_to_clipboard",
    [VT100_EVENT_PASTE_FROM_CLIPBOARD] = "paste_from_clipboard",
    [VT100_EVENT_UNHANDLED_CHAR] = "unhandled_char",
    [VT100_EVENT_UNHANDLED_CONTROL] = "unhandled_control",
    [VT100_EVENT_UNHANDLED_ESCAPE] = "unhandled_escape",
    [VT100_EVENT_UNHANDLED_CSI] = "unhandled_csi",
    [VT100_EVENT_UNHANDLED_OSC] = "unhandled_osc",
    [VT100_EVENT_ON_SCROLL] = "on_scroll",
};

/* Bytes that have not been read yet. */
struct bytes {
    const uint8_t *at;
    size_t len;
};

/* Reads the next `len` bytes. */
static struct bytes take(struct bytes *rest, size_t len) {
    struct bytes taken = {rest->at, len};
    rest->at += len;
    rest->len -= len;
    return taken;
}

/* Reads a little-endian number of `len` bytes. */
static uint64_t take_number(struct bytes *rest, size_t len) {
    struct bytes taken = take(rest, len);
    uint64_t number = 0;
    while (len-- > 0) number = number << 8 | taken.at[len];
    return number;
}

/* Prints a string in quotes, with each byte that is not printable ASCII as \xNN. */
static void print_text(struct bytes text) {
    printf(" \"");
    for (size_t k = 0; k < text.len; k++) {
        uint8_t byte = text.at[k];
        printf(byte < 0x20 || byte > 0x7e ? "\\x%02x" : "%c", byte);
    }
    printf("\"");
}

/* Prints the strings in the text of a record, each of which is preceded by its length. */
static void print_parts(struct bytes text) {
    while (text.len > 0) print_text(take(&text, take_number(&text, 8)));
}

/* Prints the intermediates of a sequence; 256 stands for none. */
static void print_intermediates(uint64_t first, uint64_t second) {
    if (first < 256) printf(" %c", (int)first);
    if (second < 256) printf(" %c", (int)second);
}

/* Prints the groups of numbers of a control sequence, and its final character. */
static void print_csi(struct bytes text) {
    uint64_t final = take_number(&text, 4);
    while (text.len > 0) {
        printf(" ");
        for (uint64_t count = take_number(&text, 8); count > 0; count--) {
            printf(count > 1 ? "%u:" : "%u", (unsigned)take_number(&text, 2));
        }
    }
    printf(" %c", (int)final);
}

/* Prints the contents of a record except its kind. */
static void print_record(uint64_t kind, uint64_t first, uint64_t second, struct bytes text) {
    switch (kind) {
    case VT100_EVENT_RESIZE: printf(" %u %u", (unsigned)first, (unsigned)second); break;
    case VT100_EVENT_SET_WINDOW_ICON_NAME:
    case VT100_EVENT_SET_WINDOW_TITLE:
    case VT100_EVENT_PASTE_FROM_CLIPBOARD: print_text(text); break;
    case VT100_EVENT_COPY_TO_CLIPBOARD:
    case VT100_EVENT_UNHANDLED_OSC: print_parts(text); break;
    case VT100_EVENT_UNHANDLED_CHAR:
    case VT100_EVENT_UNHANDLED_CONTROL: printf(" %#x", (unsigned)first); break;
    case VT100_EVENT_UNHANDLED_ESCAPE:
        print_intermediates(first, second);
        printf(" %c", text.at[0]);
        break;
    case VT100_EVENT_UNHANDLED_CSI:
        print_intermediates(first, second);
        print_csi(text);
        break;
    case VT100_EVENT_ON_SCROLL:
        print_text(text);
        if (first == 1) printf(" of the alternate screen");
        if (second == 1) printf(" wrapped");
        break;
    }
}

/* Prints a line for each record. */
static void print_records(struct bytes records) {
    while (records.len > 0) {
        uint64_t kind = take_number(&records, 1);
        uint64_t first = take_number(&records, 4), second = take_number(&records, 4);
        struct bytes text = take(&records, take_number(&records, 8));
        printf("%s", kind < sizeof names / sizeof *names ? names[kind] : "unknown");
        print_record(kind, first, second, text);
        printf("\n");
    }
}

static int failed(const char *what) {
    fprintf(stderr, "events: %s\n", what);
    return 1;
}

/* Prints the events that the parser has logged, and clears the log. */
static int print_events(vt100_handle *parser) {
    size_t len;
    uint8_t is_whole;
    if (vt100_events(parser, &len, &is_whole) != VT100_OK) return failed("no parser");
    uint8_t *records = malloc(len + 1);
    if (records == NULL) return failed("out of memory");
    vt100_copy_events(parser, records, len);
    print_records((struct bytes){records, len});
    free(records);
    vt100_clear_events(parser);
    return is_whole ? 0 : failed("events are missing");
}

/*
 * Processes bytes up to each event in turn, and prints the event. At that moment, the screen is as
 * the event left it. A program that does not look at the screen can call vt100_process instead, and
 * then print the events of all bytes.
 */
static int process(vt100_handle *parser, const uint8_t *bytes, size_t count) {
    size_t used;
    for (size_t at = 0; at < count; at += used) {
        vt100_status status = vt100_process_until(parser, bytes + at, count - at, &used);
        if (status != VT100_OK) return failed("out of memory");
        if (print_events(parser) != 0) return 1;
    }
    return 0;
}

/* Processes all input. */
static int process_all(vt100_handle *parser) {
    uint8_t bytes[8192];
    size_t count;
    while ((count = fread(bytes, 1, sizeof bytes, stdin)) > 0) {
        if (process(parser, bytes, count) != 0) return 1;
    }
    if (ferror(stdin)) return failed("read failed");
    return fflush(stdout) != 0 ? failed("write failed") : 0;
}

int main(int argc, char **argv) {
    unsigned rows = 0, cols = 0;
    char more;
    if (argc != 3 || sscanf(argv[1], "%5u%c", &rows, &more) != 1
        || sscanf(argv[2], "%5u%c", &cols, &more) != 1 || rows - 1 >= UINT16_MAX
        || cols - 1 >= UINT16_MAX) {
        fprintf(stderr, "usage: events ROWS COLS\n");
        return 2;
    }
    vt100_handle parser = VT100_EMPTY;
    uint16_t wanted = VT100_WANTS_ALL;
    if (vt100_parser_new((uint16_t)rows, (uint16_t)cols, 0, wanted, &parser) != VT100_OK) {
        return failed("out of memory");
    }
    int status = process_all(&parser);
    vt100_free(&parser);
    return status;
}
