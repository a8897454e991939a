/* A replacement for ../heap.c that counts its allocations and makes some of them fail. */
#include "heap_refusing.h"

#include <stdbool.h>
#include <stddef.h>
#include <stdlib.h>

struct block { bool is_granted; void *at; };
static char nowhere;

/* The header that is stored before each block. */
union head { size_t size; max_align_t aligned; };

size_t heap_bytes, heap_peak;
long heap_allocations, heap_live, heap_refused = -1;
int heap_refuses_all_behind;

struct block rattle_alloc(size_t size, size_t align);
struct block rattle_realloc(void *at, size_t old_size, size_t size, size_t align);
void rattle_dealloc(void *at);

static bool is_refused(void) {
    long allocation = heap_allocations++;
    return allocation == heap_refused || (heap_refuses_all_behind && heap_refused >= 0
                                      && allocation > heap_refused);
}

/*
 * Returns a block of `size` bytes after its header. Resizes the block of the header `old`, or
 * allocates a new block if `old` is null.
 */
static struct block block_of(union head *old, size_t size) {
    union head *head = realloc(old, sizeof *head + size);
    if (head == NULL) return (struct block){false, &nowhere};
    head->size = size;
    heap_bytes += size;
    if (heap_bytes > heap_peak) heap_peak = heap_bytes;
    return (struct block){true, head + 1};
}

struct block rattle_alloc(size_t size, size_t align) {
    (void)align;
    if (is_refused()) return (struct block){false, &nowhere};
    heap_live++;
    return block_of(NULL, size);
}

struct block rattle_realloc(void *at, size_t old_size, size_t size, size_t align) {
    (void)align;
    if (is_refused()) return (struct block){false, &nowhere};
    heap_bytes -= old_size;
    return block_of((union head *)at - 1, size);
}

void rattle_dealloc(void *at) {
    union head *head = (union head *)at - 1;
    heap_live--;
    heap_bytes -= head->size;
    free(head);
}
