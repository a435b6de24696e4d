#pragma once
/* The numbers are those of Linux on x86-64 and arm64. */
#include <stddef.h>
#define PROT_NONE 0
#define PROT_READ 1
#define PROT_WRITE 2
#define MAP_PRIVATE 0x2
#define MAP_ANONYMOUS 0x20
#define MAP_NORESERVE 0x4000
#define MAP_FAILED ((void *)-1)
#define MADV_HUGEPAGE 14
#define MADV_NOHUGEPAGE 15
void *mmap(void *at, size_t length, int protection, int flags, int file, long offset);
int mprotect(void *start, size_t length, int protection);
int madvise(void *start, size_t length, int advice);
