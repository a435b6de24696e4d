/* The heap of the proved code, over malloc. The proved archive leaves these three functions open, and their contracts are
   in the toolchain's libc/src/heap.rt: an alignment divides 16, which malloc gives on a 64-bit machine, and a length is
   below 2 to the 63. A handle keeps blocks that its calls have taken, until a later call or bcs_close frees them, so they
   must outlive the call. To take memory from elsewhere, define the three yourself: they replace these of libbcs.a. */
#include <stdbool.h>
#include <stddef.h>
#include <stdlib.h>

_Static_assert(_Alignof(max_align_t) % 16 == 0, "malloc gives blocks that are aligned to 16 bytes");

/* A block, or NULL if there is no memory. */
struct tried {
    bool ok;
    void *block;
};

/* Where `block` points when there is no memory, since it is never null. */
static char nothing[1];

static struct tried tried(void *block) {
    struct tried answer = {block != NULL, block != NULL ? block : nothing};
    return answer;
}

/* malloc and realloc may return NULL for zero bytes, which would look like an allocation that failed. */
static size_t at_least_one(size_t length) {
    return length != 0 ? length : 1;
}

struct tried rattle_alloc(size_t length, size_t alignment) {
    (void)alignment;
    return tried(malloc(at_least_one(length)));
}

/* Where it fails, the block stays as it was, as realloc has it. */
struct tried rattle_realloc(void *block, size_t kept, size_t length, size_t alignment) {
    (void)kept;
    (void)alignment;
    return tried(realloc(block, at_least_one(length)));
}

void rattle_dealloc(void *block) {
    free(block);
}
