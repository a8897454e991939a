/* What the library uses of the C library: the heap, which is dlmalloc, whose functions have a prefix. */
#pragma once
#include <stddef.h>
#define malloc dlmalloc
#define realloc dlrealloc
#define free dlfree
void *malloc(size_t size);
void *realloc(void *at, size_t size);
void free(void *at);
