/* The functions of the module that are written in C: those of names.c, and the host's access to the heap.
 *
 * A directive of the assembler exports them. With the attributes of C that export a function, the linker
 * also adds a table with 64-bit indices, which Node 20 does not read. */
#include "names.c"

#include <stdlib.h>

void *vt100_js_malloc(size_t size);
void vt100_js_free(void *at);

void *vt100_js_malloc(size_t size) { return malloc(size); }

void vt100_js_free(void *at) { free(at); }

#define EXPORT(name) __asm__(".export_name " #name ", " #name)
EXPORT(vt100_version);
EXPORT(vt100_status_text);
EXPORT(vt100_js_malloc);
EXPORT(vt100_js_free);
