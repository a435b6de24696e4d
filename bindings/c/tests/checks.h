/* What the tests of the library share: memory and outputs at the end of a page, and checks that name their line. */
#ifndef CHECKS_H
#define CHECKS_H

#define _GNU_SOURCE
#include <bcs.h>
#include <stdbool.h>
#include <stdio.h>
#include <stdlib.h>
#include <string.h>
#include <sys/mman.h>
#include <unistd.h>

#define CHECK(claim) \
    ((claim) ? (void)0 : (fprintf(stderr, "%s:%d: FAILED: %s\n", __FILE__, __LINE__, #claim), exit(1)))

/* What an output holds before a call. */
#define UNTOUCHED 0xa5

struct slice {
    const uint8_t *at;
    size_t length;
};

/* Memory whose end is the end of a page, with none behind it, so that a byte read or written too far ends the test. */
static inline uint8_t *guarded(size_t length) {
    const size_t page = (size_t)sysconf(_SC_PAGESIZE);
    const size_t room = (length + page - 1) / page * page;
    uint8_t *memory = mmap(NULL, room + page, PROT_READ | PROT_WRITE, MAP_PRIVATE | MAP_ANONYMOUS, -1, 0);
    CHECK(memory != MAP_FAILED && mprotect(memory + room, page, PROT_NONE) == 0);
    return memory + (room - length);
}

/* Memory of whole pages with none below. */
static inline uint8_t *guarded_below(size_t length) {
    const size_t page = (size_t)sysconf(_SC_PAGESIZE);
    uint8_t *memory = mmap(NULL, page + length, PROT_READ | PROT_WRITE, MAP_PRIVATE | MAP_ANONYMOUS, -1, 0);
    CHECK(memory != MAP_FAILED && mprotect(memory, page, PROT_NONE) == 0);
    return memory + page;
}

static inline void unguard(const uint8_t *memory, size_t length) {
    const size_t page = (size_t)sysconf(_SC_PAGESIZE);
    const size_t room = (length + page - 1) / page * page;
    CHECK(munmap((void *)(memory + length - room), room + page) == 0);
}

static inline struct slice slice_of(const char *bytes, size_t length) {
    uint8_t *copy = guarded(length);
    if (length > 0) {
        memcpy(copy, bytes, length);
    }
    return (struct slice){copy, length};
}

static inline void drop(struct slice slice) {
    unguard(slice.at, slice.length);
}

static inline bool is_text(const uint8_t *bytes, size_t length, const char *words) {
    return length == strlen(words) && memcmp(bytes, words, length) == 0;
}

/* Whether these bytes are all as they were before the call. */
static inline bool are_untouched(const uint8_t *bytes, size_t length) {
    for (size_t place = 0; place < length; place++) {
        if (bytes[place] != UNTOUCHED) {
            return false;
        }
    }
    return true;
}

#endif
