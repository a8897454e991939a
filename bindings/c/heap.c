/* The library's heap, which is the heap of the C library. A failed allocation also returns an
   address, which is never used. */
#include <stdbool.h>
#include <stddef.h>
#include <stdlib.h>

struct block { bool is_granted; void *at; };
static char nowhere;
/* The alignment that malloc gives memory of at least that size, which every block has. */
static bool fits(size_t align) { return align <= 2 * sizeof(void *); }
static struct block block_at(void *at) {
    return (struct block){at != NULL, at != NULL ? at : &nowhere};
}

struct block rattle_alloc(size_t size, size_t align);
struct block rattle_realloc(void *at, size_t old_size, size_t size, size_t align);
void rattle_dealloc(void *at);

struct block rattle_alloc(size_t size, size_t align) {
    return block_at(fits(align) ? malloc(size > 0 ? size : 1) : NULL);
}

struct block rattle_realloc(void *at, size_t old_size, size_t size, size_t align) {
    (void)old_size;
    return block_at(fits(align) ? realloc(at, size > 0 ? size : 1) : NULL);
}

void rattle_dealloc(void *at) { free(at); }
