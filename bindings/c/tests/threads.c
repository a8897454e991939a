/*
 * threads: two threads, each with a parser that was created by the main thread, must produce the
 * same redraws as a single thread.
 */
#include "lines.h"

#include <pthread.h>
#include <stdio.h>
#include <stdlib.h>
#include <string.h>

enum { ROUNDS = 2000 };

struct task {
    vt100_handle parser;
    const char *line;
    struct text text;
};

/* Parses many lines, and copies the redraw to the task's text. */
static void *run(void *given) {
    struct task *task = given;
    size_t len;
    for (int i = 0; i < ROUNDS; i++) {
        const uint8_t *bytes = (const uint8_t *)task->line;
        must(vt100_process(&task->parser, bytes, strlen(task->line)) == VT100_OK);
        must(vt100_contents_formatted(&task->parser, &len) == VT100_OK);
    }
    uint8_t *text = malloc(len + 1);
    must(text != NULL && vt100_copy(&task->parser, text, len) == len);
    text[len] = 0;
    clear(&task->text);
    add(&task->text, "%s", (char *)text);
    free(text);
    vt100_free(&task->parser);
    return NULL;
}

static void begin(struct task *task, const char *line) {
    task->line = line;
    must(vt100_parser_new(24, 80, 100, 0, &task->parser) == VT100_OK);
}

int main(void) {
    static const char *const lines[] = {
        "\x1b[31mred\x1b[m and \xe5\xad\x97 \x1b[%d", "\x1b[3;7Hwhat\x1b[1mever\r\n\n\x1b]2;x\a"};
    static struct task alone[2], beside[2];
    pthread_t threads[2];
    for (int i = 0; i < 2; i++) {
        begin(&alone[i], lines[i]);
        run(&alone[i]);
        begin(&beside[i], lines[i]);
    }
    must(strcmp(alone[0].text.bytes, alone[1].text.bytes) != 0);
    for (int i = 0; i < 2; i++) must(pthread_create(&threads[i], NULL, run, &beside[i]) == 0);
    for (int i = 0; i < 2; i++) {
        must(pthread_join(threads[i], NULL) == 0);
        must(strcmp(alone[i].text.bytes, beside[i].text.bytes) == 0);
        free(alone[i].text.bytes);
        free(beside[i].text.bytes);
    }
    printf("threads: 2 parsers, %d redraws each\n", ROUNDS);
    return 0;
}
