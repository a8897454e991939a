/*
 * cases FILE..: replays recorded cases and scripts (crates/test_cases/README.md). Prints a line for
 * each difference, and the counts. The exit status is 1 if something differs or if there are no
 * cases.
 */
#include "lines.h"

#include <stdio.h>
#include <stdlib.h>
#include <string.h>

static unsigned seen, differing;

/* Parses the number at the beginning of `*words`, and moves `*words` to the next word. */
static size_t number(char **words) {
    size_t count = strtoul(*words, words, 10);
    if (**words == ' ') ++*words;
    return count;
}

/*
 * Decodes the hexadecimal bytes of the first word in place, and moves `*words` to the next word.
 * Returns the number of bytes.
 */
static size_t bytes_of(char **words, uint8_t **bytes) {
    char *word = *words;
    size_t len = strcspn(word, " ");
    *words = word + len + (word[len] == ' ');
    *bytes = (uint8_t *)word;
    if (len == 1 && *word == '.') return 0;
    for (size_t i = 0; i < len / 2; i++) {
        unsigned byte;
        must(sscanf(word + 2 * i, "%2x", &byte) == 1);
        (*bytes)[i] = (uint8_t)byte;
    }
    return len / 2;
}

/*
 * Returns whether the bytes from `start` to `end` of the handle's text are those of the next word.
 */
static int is_text(vt100_handle *handle, size_t start, size_t end, char **words) {
    uint8_t *told;
    size_t len = bytes_of(words, &told);
    uint8_t *text = malloc(end + 1);
    must(text != NULL);
    must(vt100_copy(handle, text, end) == end);
    int same = end - start == len && memcmp(text + start, told, len) == 0;
    free(text);
    return same;
}

/* Returns whether the texts of the rows are those of the words after the start and the width. */
static int are_rows(vt100_handle *handle, vt100_handle *prev, const char *name, char *words) {
    vt100_state state;
    must(vt100_get_state(handle, &state) == VT100_OK);
    uint16_t start = (uint16_t)number(&words), width = (uint16_t)number(&words);
    size_t *ends = malloc(state.rows * sizeof *ends);
    size_t len = 0;
    must(ends != NULL);
    vt100_status status =
        strcmp(name, "rows") == 0 ? vt100_rows(handle, start, width, ends, state.rows, &len)
        : strcmp(name, "rows_formatted") == 0
            ? vt100_rows_formatted(handle, start, width, ends, state.rows, &len)
            : vt100_rows_diff(handle, prev, start, width, ends, state.rows, &len);
    must(status == VT100_OK && ends[state.rows - 1] == len);
    int same = 1;
    for (uint16_t row = 0; row < state.rows; row++) {
        must(*words != 0);
        same &= is_text(handle, row > 0 ? ends[row - 1] : 0, ends[row], &words);
    }
    free(ends);
    return same && *words == 0;
}

/*
 * Returns whether the handle has the output that a line specifies by its name and its other words.
 */
static int is_told(vt100_handle *handle, vt100_handle *prev, const char *name, char *words) {
    size_t len = 0;
    vt100_status status = VT100_BAD_ARGUMENT;
    if (strncmp(name, "rows", 4) == 0) return are_rows(handle, prev, name, words);
    if (strcmp(name, "contents") == 0) status = vt100_contents(handle, &len);
    if (strcmp(name, "formatted") == 0) status = vt100_contents_formatted(handle, &len);
    if (strcmp(name, "basic") == 0) status = vt100_contents_formatted_basic(handle, &len);
    if (strcmp(name, "diff") == 0) status = vt100_contents_diff(handle, prev, &len);
    if (strcmp(name, "cursor_state") == 0) status = vt100_cursor_state_formatted(handle, &len);
    if (strcmp(name, "attributes") == 0) status = vt100_attributes_formatted(handle, &len);
    if (strcmp(name, "input") == 0) status = vt100_input_mode_formatted(handle, &len);
    if (strcmp(name, "input_diff") == 0) status = vt100_input_mode_diff(handle, prev, &len);
    if (strcmp(name, "between") == 0) {
        uint16_t at[4];
        for (int i = 0; i < 4; i++) at[i] = (uint16_t)number(&words);
        status = vt100_contents_between(handle, at[0], at[1], at[2], at[3], &len);
    }
    must(status == VT100_OK);
    return is_text(handle, 0, len, &words) && *words == 0;
}

static int is_of_state(const char *word) {
    static const char *const words[] = {
        "size", "scrollback", "lengths", "cursor", "flags", "cell", "screen", "event", "scroll"};
    for (size_t i = 0; i < sizeof words / sizeof *words; i++) {
        if (strcmp(word, words[i]) == 0) return 1;
    }
    return 0;
}

/* Ends the string `line` after its first word, and returns the remaining words. */
static char *behind(char *line) {
    size_t len = strcspn(line, " ");
    if (line[len] == 0) return line + len;
    line[len] = 0;
    return line + len + 1;
}

/* Returns the next line of a block, without its newline, or null if there is none. */
static char *next_line(char **lines) {
    char *line = *lines;
    if (*line == 0) return NULL;
    size_t len = strcspn(line, "\n");
    *lines = line + len + (line[len] == '\n');
    line[len] = 0;
    return line;
}

static void differs(const char *name, const char *word, struct text *state, struct text *told) {
    differing++;
    printf("differs: %s (%s)\n", name, word);
    if (state != NULL) printf("%sand not\n%s", state->bytes, told->bytes);
}

/*
 * A case: its bytes, how many of them produce the screen from which differences start, and its
 * lines.
 */
struct one {
    uint8_t *bytes;
    size_t len, before;
    struct text told;
    char *texts[64];
    size_t count;
};

static void read_case(struct one *one, char *lines) {
    for (char *line; (line = next_line(&lines)) != NULL;) {
        char *whole = line, *words;
        struct text copy = {0};
        add(&copy, "%s\n", whole);
        words = behind(line);
        if (strcmp(line, "<") == 0) one->len = bytes_of(&words, &one->bytes);
        else if (strcmp(line, "prev") == 0) one->before = number(&words);
        else if (is_of_state(line)) add(&one->told, "%s", copy.bytes);
        else if (strcmp(line, "unsteady") != 0) {
            must(one->count < 64);
            one->texts[one->count++] = line;
        }
        free(copy.bytes);
    }
}

static void replay_case(const char *name, uint16_t rows, uint16_t cols, char *lines) {
    struct one one = {0};
    struct text state = {0};
    vt100_handle parser = VT100_EMPTY, prev = VT100_EMPTY;
    clear(&one.told);
    clear(&state);
    read_case(&one, lines);
    must(vt100_parser_new(rows, cols, 0, 0x1fff, &parser) == VT100_OK);
    must(vt100_process(&parser, one.bytes, one.before) == VT100_OK);
    must(vt100_save(&parser, &prev) == VT100_OK);
    must(vt100_process(&parser, one.bytes + one.before, one.len - one.before) == VT100_OK);
    add_picture(&state, &parser);
    add_modes(&state, &parser);
    add_calls(&state, &parser);
    if (strcmp(state.bytes, one.told.bytes) != 0) differs(name, "state", &state, &one.told);
    for (size_t i = 0; i < one.count; i++) {
        char *word = one.texts[i], *words = word + strlen(word) + 1;
        if (!is_told(&parser, &prev, word, words)) differs(name, word, NULL, NULL);
    }
    vt100_free(&parser);
    vt100_free(&prev);
    free(one.told.bytes);
    free(state.bytes);
}

static void take_step(vt100_handle *parser, const char *call, char *words) {
    vt100_status status = VT100_BAD_ARGUMENT;
    if (strcmp(call, "process") == 0) {
        uint8_t *bytes;
        size_t len = bytes_of(&words, &bytes);
        status = vt100_process(parser, bytes, len);
    } else if (strcmp(call, "clone") == 0) {
        vt100_handle copy = VT100_EMPTY;
        status = vt100_save(parser, &copy);
        must(vt100_swap(parser, &copy) == VT100_OK);
        vt100_free(&copy);
    } else if (strcmp(call, "set_scrollback") == 0) {
        status = vt100_set_scrollback(parser, number(&words));
    } else if (strcmp(call, "clear_scrollback") == 0) {
        status = vt100_clear_scrollback(parser);
    } else if (strcmp(call, "clear_events") == 0) {
        status = vt100_clear_events(parser);
    } else {
        uint16_t rows = (uint16_t)number(&words), cols = (uint16_t)number(&words);
        int is_told = strcmp(call, "set_size") == 0;
        must(is_told || strcmp(call, "screen_set_size") == 0);
        status = (is_told ? vt100_set_size : vt100_screen_set_size)(parser, rows, cols);
    }
    must(status == VT100_OK);
}

/* Reads the lines up to the next step, and compares the state and the output with them. */
static void expect(const char *name, vt100_handle *parser, vt100_handle *prev, char **lines) {
    struct text state = {0}, told = {0};
    clear(&told);
    clear(&state);
    while (**lines != 0 && **lines != '>') {
        char *line = next_line(lines), *words;
        struct text copy = {0};
        add(&copy, "%s\n", line);
        words = behind(line);
        if (is_of_state(line)) add(&told, "%s", copy.bytes);
        else if (!is_told(parser, prev, line, words)) differs(name, line, NULL, NULL);
        free(copy.bytes);
    }
    add_size(&state, parser);
    add_picture(&state, parser);
    add_modes(&state, parser);
    add_calls(&state, parser);
    if (strcmp(state.bytes, told.bytes) != 0) differs(name, "state", &state, &told);
    free(state.bytes);
    free(told.bytes);
}

static void replay_script(const char *name, uint16_t rows, uint16_t cols, size_t capacity,
                          char *lines) {
    vt100_handle parser = VT100_EMPTY, prev = VT100_EMPTY;
    must(vt100_parser_new(rows, cols, capacity, 0x1fff, &parser) == VT100_OK);
    must(vt100_save(&parser, &prev) == VT100_OK);
    for (char *line; (line = next_line(&lines)) != NULL;) {
        must(line[0] == '>');
        char *call = line + 2, *words = behind(call);
        if (strcmp(call, "expect") != 0) {
            take_step(&parser, call, words);
            continue;
        }
        expect(name, &parser, &prev, &lines);
        vt100_free(&prev);
        must(vt100_save(&parser, &prev) == VT100_OK);
    }
    vt100_free(&parser);
    vt100_free(&prev);
}

/*
 * Replays a block, given without its "= ". It is a case if its first line is NAME ROWS COLS, and a
 * script if that line also has a capacity.
 */
static void replay(char *block) {
    char *name = next_line(&block), *words = behind(name);
    uint16_t rows = (uint16_t)number(&words), cols = (uint16_t)number(&words);
    seen++;
    if (*words == 0) replay_case(name, rows, cols, block);
    else replay_script(name, rows, cols, number(&words), block);
}

static char *read_file(const char *name) {
    FILE *file = fopen(name, "rb");
    must(file != NULL);
    must(fseek(file, 0, SEEK_END) == 0);
    size_t len = (size_t)ftell(file);
    rewind(file);
    char *text = malloc(len + 1);
    must(text != NULL && fread(text, 1, len, file) == len);
    text[len] = 0;
    fclose(file);
    return text;
}

int main(int argc, char **argv) {
    for (int i = 1; i < argc; i++) {
        char *text = read_file(argv[i]);
        must(strncmp(text, "= ", 2) == 0);
        for (char *block = text + 2; block != NULL;) {
            char *end = strstr(block, "\n= ");
            if (end != NULL) *end = 0;
            replay(block);
            block = end != NULL ? end + 3 : NULL;
        }
        free(text);
    }
    printf("%u cases, %u differ\n", seen, differing);
    return seen == 0 || differing > 0;
}
