/* The kit's clang has no headers. */
#pragma once
typedef __SIZE_TYPE__ size_t;
typedef __PTRDIFF_TYPE__ ptrdiff_t;
#define NULL ((void *)0)
typedef struct { long long whole __attribute__((aligned(16))); } max_align_t;
