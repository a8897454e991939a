/* A heap that counts its allocations. The allocation with the number heap_refused, counted from 0,
   fails, and if heap_refuses_all_behind is not 0, so do all later ones. heap_live is the number of
   blocks that have not been freed, heap_bytes their total size in bytes, and heap_peak the maximum
   of heap_bytes. */
#ifndef HEAP_REFUSING_H
#define HEAP_REFUSING_H

#include <stddef.h>

extern long heap_allocations, heap_live, heap_refused;
extern size_t heap_bytes, heap_peak;
extern int heap_refuses_all_behind;

#endif
