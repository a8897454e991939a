/* Memory for the heap: sbrk over memory.grow. The heap begins where the linker says, and only grows.
 *
 * LIMIT is where memory must end. The 32-bit form of the module cuts each address and each number of
 * pages to 32 bits without a check, so its LIMIT is below 4 GiB by more than the size of the stack: an
 * address below 0, after a stack overflow, then is above the end of memory, and traps. */
#include <stddef.h>

#define PAGE 65536

extern char __heap_base;

/* Returns the start of `count` more bytes, or (void *)-1 if memory cannot grow so far. */
void *sbrk(ptrdiff_t count);
void *sbrk(ptrdiff_t count) {
    static size_t end;
    if (end == 0) end = ((size_t)&__heap_base + 15) & ~(size_t)15;
    size_t start = end;
    size_t size = __builtin_wasm_memory_size(0) * (size_t)PAGE;
    if (count < 0 || (size_t)count > LIMIT - start) return (void *)-1;
    if (start + (size_t)count > size) {
        size_t pages = (start + (size_t)count - size + PAGE - 1) / PAGE;
        /* A refused growth is -1, of which the 32-bit form keeps 32 bits. */
        if ((unsigned)__builtin_wasm_memory_grow(0, pages) == (unsigned)-1) return (void *)-1;
    }
    end = start + (size_t)count;
    return (void *)start;
}
