/* libvterm process ROWS COLS CAPACITY TIMES FILE: parses FILE TIMES times with libvterm, in chunks of
 * 4096 bytes, and keeps the last CAPACITY rows that scroll off. See bench/time.
 *
 * cc -O2 -o libvterm libvterm.c $(pkg-config --cflags --libs vterm)
 */
#include <stdio.h>
#include <stdlib.h>
#include <string.h>
#include <vterm.h>

enum { CHUNK = 4096 };

/* The rows that have scrolled off: a ring of rows of `cols` cells. */
struct history {
  VTermScreenCell *cells;
  size_t capacity, cols, next;
};

static int push_row(int cols, const VTermScreenCell *cells, void *user) {
  struct history *history = user;
  if (history->capacity == 0) return 1;
  memcpy(history->cells + history->next * history->cols, cells, (size_t)cols * sizeof *cells);
  history->next = (history->next + 1) % history->capacity;
  return 1;
}

static const VTermScreenCallbacks CALLBACKS = {.sb_pushline = push_row};

/* Reads a whole file. Ends the program if that fails. */
static char *read_file(const char *path, size_t *len) {
  FILE *file = fopen(path, "rb");
  if (!file || fseek(file, 0, SEEK_END) != 0) exit(1);
  *len = (size_t)ftell(file);
  rewind(file);
  char *bytes = malloc(*len + 1);
  if (!bytes || fread(bytes, 1, *len, file) != *len) exit(1);
  fclose(file);
  return bytes;
}

int main(int argc, char **argv) {
  if (argc != 7 || strcmp(argv[1], "process") != 0) {
    fprintf(stderr, "usage: libvterm process ROWS COLS CAPACITY TIMES FILE\n");
    return 2;
  }
  int rows = atoi(argv[2]), cols = atoi(argv[3]);
  struct history history = {.capacity = (size_t)atol(argv[4]), .cols = (size_t)cols};
  history.cells = calloc(history.capacity * history.cols + 1, sizeof *history.cells);
  size_t len;
  char *bytes = read_file(argv[6], &len);
  VTerm *terminal = vterm_new(rows, cols);
  vterm_set_utf8(terminal, 1);
  VTermScreen *screen = vterm_obtain_screen(terminal);
  vterm_screen_set_callbacks(screen, &CALLBACKS, &history);
  vterm_screen_enable_altscreen(screen, 1);
  vterm_screen_reset(screen, 1);
  for (long time = atol(argv[5]); time > 0; time--)
    for (size_t at = 0; at < len; at += CHUNK)
      vterm_input_write(terminal, bytes + at, len - at < CHUNK ? len - at : CHUNK);
  vterm_free(terminal);
  return 0;
}
