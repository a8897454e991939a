/* The configuration of dlmalloc: its memory comes from sbrk alone, and it needs no C library. */
#include <stddef.h>

#define LACKS_ERRNO_H 1
#define LACKS_FCNTL_H 1
#define LACKS_SCHED_H 1
#define LACKS_STDLIB_H 1
#define LACKS_STRINGS_H 1
#define LACKS_STRING_H 1
#define LACKS_SYS_MMAN_H 1
#define LACKS_SYS_PARAM_H 1
#define LACKS_SYS_TYPES_H 1
#define LACKS_TIME_H 1
#define LACKS_UNISTD_H 1

#define HAVE_MMAP 0
#define HAVE_MREMAP 0
#define HAVE_MORECORE 1
#define MORECORE_CONTIGUOUS 1
#define MORECORE_CANNOT_TRIM 1
#define USE_LOCKS 0

#define malloc_getpagesize 65536
#define DEFAULT_GRANULARITY 65536
#define MALLOC_ALIGNMENT 16
#define MALLOC_FAILURE_ACTION
#define USE_DL_PREFIX 1
#define NO_MALLINFO 1
#define NO_MALLOC_STATS 1
#define ABORT __builtin_trap()

#define EINVAL 22
#define ENOMEM 12
#define memcpy __builtin_memcpy
#define memset __builtin_memset

void *sbrk(ptrdiff_t count);
