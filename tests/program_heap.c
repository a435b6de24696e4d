/* Tests the program's heap, tools/link/program_heap.c. What it asks of the system can be refused here. */
#define _GNU_SOURCE
#include <stdbool.h>
#include <stddef.h>
#include <stdint.h>
#include <stdio.h>
#include <stdlib.h>
#include <string.h>
#include <sys/mman.h>
#include <sys/resource.h>

/* How many requests the system still grants. */
static long granted = -1;

static bool refused(void) {
    if (granted == 0) return true;
    if (granted > 0) granted--;
    return false;
}

static void *malloc_or_refuse(size_t length) {
    return refused() ? NULL : malloc(length);
}
static void *realloc_or_refuse(void *block, size_t length) {
    return refused() ? NULL : realloc(block, length);
}
static int mprotect_or_refuse(void *start, size_t length, int protection) {
    return refused() ? -1 : mprotect(start, length, protection);
}

#define malloc malloc_or_refuse
#define realloc realloc_or_refuse
#define mprotect mprotect_or_refuse
#include "../tools/link/program_heap.c"
#undef malloc
#undef realloc
#undef mprotect

#define CHECK(holds) \
    ((holds) ? (void)0 : (printf("heap: FAILED: line %d: %s\n", __LINE__, #holds), fflush(stdout), exit(1)))
#define BLOCKS 20000
#define STEPS 500000

/* A block in use. Its bytes are those of its mark. */
struct held {
    unsigned char *bytes;
    size_t length;
    unsigned char mark;
};
static struct held held[BLOCKS];

static uint64_t state = 88172645463325252;
static size_t below(size_t bound) {
    state ^= state << 13;
    state ^= state >> 7;
    state ^= state << 17;
    return (size_t)(state % bound);
}

/* Mostly short blocks, each length up to some bytes over the longest one of a run, and now and then a long one. */
static size_t some_length(void) {
    size_t kind = below(100);
    return kind < 70 ? below(80) : kind < 97 ? below(SMALL_MOST + 40) : kind < 99 ? below(5000) : below(300000);
}

static void check(const struct held *it, size_t length) {
    for (size_t at = 0; at < length; at++) CHECK(it->bytes[at] == it->mark);
}

static void fill(struct held *it, struct tried answer, size_t length) {
    CHECK(answer.block != NULL && (uintptr_t)answer.block % 16 == 0);
    *it = (struct held){answer.block, length, (unsigned char)below(256)};
    memset(it->bytes, it->mark, length);
}

static void drop(struct held *it) {
    check(it, it->length);
    rattle_dealloc(it->bytes);
    it->bytes = NULL;
}

/* Makes a new block, one of another length, or drops it. Where the system refuses, nothing may change. */
static bool step(struct held *it) {
    size_t length = some_length();
    if (it->bytes == NULL) {
        struct tried answer = rattle_alloc(length, 16);
        if (answer.ok) fill(it, answer, length);
        return answer.ok;
    }
    if (below(3) == 0) {
        drop(it);
        return true;
    }
    size_t kept = it->length < length ? it->length : length;
    struct tried answer = rattle_realloc(it->bytes, kept, length, 16);
    CHECK(answer.block != NULL);
    if (!answer.ok) {
        check(it, it->length);
        return false;
    }
    it->bytes = answer.block;
    check(it, kept);
    fill(it, answer, length);
    return true;
}

static void drop_all(void) {
    for (size_t at = 0; at < BLOCKS; at++)
        if (held[at].bytes != NULL) drop(&held[at]);
}

static size_t in_use(void) {
    size_t sum = 0;
    for (size_t at = 0; at < given / RUN; at++) sum += runs[at].used;
    return sum;
}

static void random_steps(size_t count) {
    for (size_t at = 0; at < count; at++) CHECK(step(&held[below(BLOCKS)]));
    drop_all();
    CHECK(in_use() == 0);
}

/* Grants so many requests of the system, and none after them. */
static size_t refusals(size_t count) {
    size_t found = 0;
    for (long most = 0; most < (long)count; most++) {
        granted = most;
        for (size_t at = 0; at < 400; at++) found += !step(&held[below(BLOCKS)]);
        granted = -1;
    }
    drop_all();
    CHECK(in_use() == 0);
    return found;
}

/* A block of a run that gets shorter needs nothing of the system. */
static void shrinks_without_requests(void) {
    for (size_t at = 0; at < BLOCKS; at++) fill(&held[at], rattle_alloc(SMALL_MOST, 16), SMALL_MOST);
    granted = 0;
    for (size_t at = 0; at < BLOCKS; at++) {
        if (run_of(held[at].bytes) == NULL) continue;
        size_t length = 1 + below(SMALL_MOST);
        struct tried answer = rattle_realloc(held[at].bytes, length, length, 16);
        CHECK(answer.ok);
        held[at] = (struct held){answer.block, length, held[at].mark};
        check(&held[at], length);
    }
    granted = -1;
    drop_all();
    CHECK(in_use() == 0);
}

/* Fills many runs with blocks of one size after another: a size gets the runs of the one before. */
static void sizes_share_runs(void) {
    size_t before = given;
    for (size_t length = UNIT; length <= SMALL_MOST; length += UNIT) {
        for (size_t at = 0; at < BLOCKS; at++) fill(&held[at], rattle_alloc(length, 16), length);
        drop_all();
    }
    size_t most = BLOCKS / (RUN / SMALL_MOST) + 1 + SMALL_MOST / UNIT;
    CHECK(given <= (before > most * RUN ? before : most * RUN));
}

int main(int count, char **words) {
    CHECK(count == 2);
    bool has_region = strcmp(words[1], "limited") != 0;
    if (!has_region) {
        struct rlimit limit = {REGION + ((rlim_t)4 << 30), RLIM_INFINITY};
        CHECK(setrlimit(RLIMIT_AS, &limit) == 0);
    }
    size_t found = refusals(2000);
    CHECK(found > 500);
    random_steps(STEPS);
    sizes_share_runs();
    shrinks_without_requests();
    CHECK((region != NULL) == has_region);
    if (strcmp(words[1], "full") == 0) CHECK(given == REGION);
    printf("heap: %s: %d random steps, %zu MiB of runs, and %zu refused requests\n", words[1], STEPS, given >> 20, found);
}
