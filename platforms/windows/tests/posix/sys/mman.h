/* What the tests of bindings/c use of POSIX and mingw doesn't have. */
#ifndef TESTS_MMAN_H
#define TESTS_MMAN_H

/* Names that the tests have for something else. */
#define tell tell_of_windows
#include <fcntl.h>
#include <io.h>
#include <stdbool.h>
#include <stdio.h>
#include <stdlib.h>
#include <string.h>
#include <windows.h>
#undef tell
#undef TEXT
#undef OUT
#undef IN

#define PROT_NONE PAGE_NOACCESS
#define PROT_READ 0
#define PROT_WRITE PAGE_READWRITE
#define MAP_PRIVATE 0
#define MAP_ANONYMOUS 0
#define MAP_FAILED NULL
#define _SC_PAGESIZE 0

static inline void *mmap(void *wanted, size_t length, int access, int flags, int file, long offset) {
    (void)wanted, (void)flags, (void)file, (void)offset;
    return VirtualAlloc(NULL, length, MEM_RESERVE | MEM_COMMIT, (DWORD)access);
}

static inline int mprotect(void *pages, size_t length, int access) {
    DWORD before;
    return VirtualProtect(pages, length, (DWORD)access, &before) ? 0 : -1;
}

static inline int munmap(void *pages, size_t length) {
    (void)length;
    return VirtualFree(pages, 0, MEM_RELEASE) ? 0 : -1;
}

static inline long sysconf(int what) {
    SYSTEM_INFO info;
    (void)what;
    GetSystemInfo(&info);
    return (long)info.dwPageSize;
}

static inline char *strsep(char **text, const char *ends) {
    char *const front = *text, *const end = front + strcspn(front, ends);
    *text = *end != 0 ? end + 1 : NULL;
    *end = 0;
    return front;
}

static inline ssize_t getline(char **line, size_t *room, FILE *file) {
    ssize_t length = 0;
    int got;
    while ((got = getc(file)) != EOF) {
        if ((size_t)length + 2 > *room) {
            *room = 2 * *room + 100;
            *line = realloc(*line, *room);
            if (*line == NULL) {
                abort();
            }
        }
        (*line)[length++] = (char)got;
        (*line)[length] = 0;
        if (got == '\n') {
            break;
        }
    }
    return length > 0 ? length : -1;
}

/* Streams are bytes. */
__attribute__((constructor)) static void keep_bytes(void) {
    _setmode(0, _O_BINARY);
    _setmode(1, _O_BINARY);
}

#endif
