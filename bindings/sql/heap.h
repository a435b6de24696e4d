/* The heap of the proved code over one whose blocks are aligned to 8 bytes, like those of PostgreSQL and SQLite. ../c/heap.c says
   what the proved code requires: blocks that are aligned to 16 bytes, and never a null one.

   A file that includes this defines take_block, which returns null if there is no memory, and give_block_back. Neither may leave
   with a jump, since the proved code has to end each call itself. */
#ifndef BCS_SQL_HEAP_H
#define BCS_SQL_HEAP_H

#include <stdbool.h>
#include <stddef.h>
#include <stdint.h>
#include <string.h>

static void *take_block(size_t length);
static void give_block_back(void *block);

/* A block, or none. */
struct tried {
    bool ok;
    void *block;
};

struct tried rattle_alloc(size_t length, size_t alignment);
struct tried rattle_realloc(void *block, size_t kept, size_t length, size_t alignment);
void rattle_dealloc(void *block);

/* Before each block is the address of the one that was taken for it, which begins 8 or 16 bytes earlier. */
struct tried rattle_alloc(size_t length, size_t alignment) {
    static char nothing[1];
    char *taken = length <= SIZE_MAX - 16 ? take_block(length + 16) : NULL;
    char *block;
    (void)alignment;
    if (taken == NULL) {
        return (struct tried){false, nothing};
    }
    block = taken + 16 - (uintptr_t)taken % 16;
    memcpy(block - sizeof taken, &taken, sizeof taken);
    return (struct tried){true, block};
}

void rattle_dealloc(void *block) {
    char *taken;
    memcpy(&taken, (char *)block - sizeof taken, sizeof taken);
    give_block_back(taken);
}

/* If it fails, the block stays as it was. */
struct tried rattle_realloc(void *block, size_t kept, size_t length, size_t alignment) {
    const struct tried answer = rattle_alloc(length, alignment);
    if (answer.ok) {
        memcpy(answer.block, block, kept < length ? kept : length);
        rattle_dealloc(block);
    }
    return answer;
}

#endif
