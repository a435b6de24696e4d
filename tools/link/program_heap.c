/* The heap of the program, which has one thread. The proved code leaves three functions open; their contracts are in the
   toolchain's libc/src/heap.rt: an alignment divides 16, and a length is below 2 to the 63.

   Blocks of up to 512 bytes come from runs of 64 KiB. All blocks of a run have one size, a multiple of 16, until none of
   them is in use; then the run can get another size. The runs are side by side in one region, so an address tells its
   run. Longer blocks come from malloc, and so do all if the region can't be reserved or has no run left. */
#include <stdbool.h>
#include <stddef.h>
#include <stdint.h>
#include <stdlib.h>
#include <string.h>
#include <sys/mman.h>
#include <sys/resource.h>

#define UNIT ((size_t)16)
#define SMALL_MOST ((size_t)512)
#define RUN ((size_t)1 << 16)
#ifndef REGION
#define REGION ((size_t)1 << 34)
#endif
/* The region becomes accessible in steps of at least this length. */
#define STEP ((size_t)1 << 20)
/* What is accessible first is in pages of the usual size, since most jobs need no more. The rest is in huge pages, if the
   system has some: then it takes fewer page faults. */
#define USUAL_PAGES ((size_t)4 << 20)
#define HUGE_PAGE ((size_t)2 << 20)

_Static_assert(_Alignof(max_align_t) % UNIT == 0, "malloc returns blocks that are aligned to 16 bytes");

/* A block, or NULL if there is no memory. */
struct tried {
    bool ok;
    void *block;
};

/* A block that isn't in use. */
struct block {
    struct block *next;
};

struct run {
    size_t size, used;        /* of a block, and how many of them are in use */
    struct block *freed;      /* those that were in use */
    char *fresh, *end;        /* those that never were */
    struct run *next, **link; /* in a list: the next run, and what points to this one */
};

static char *region;
static size_t accessible, given; /* how much of the region is accessible, and how much of it belongs to runs */
static struct run *runs;         /* those in the region, side by side */
static struct run *with_room[SMALL_MOST / UNIT + 1]; /* for each size in units, the runs that have a block left */
static struct run *without_size;                     /* the runs of which no block is in use */

/* What `block` points to if there is no memory, since it is never null. */
static char nothing[1];

static struct tried tried(void *block) {
    struct tried answer = {block != NULL, block != NULL ? block : nothing};
    return answer;
}

/* malloc and realloc may return null for no bytes, which would look like a failure. */
static size_t at_least_one(size_t length) {
    return length != 0 ? length : 1;
}

static size_t units(size_t length) {
    return (at_least_one(length) + UNIT - 1) / UNIT;
}

static void insert(struct run **list, struct run *run) {
    run->next = *list;
    run->link = list;
    if (run->next != NULL) run->next->link = &run->next;
    *list = run;
}

static void take_out(struct run *run) {
    *run->link = run->next;
    if (run->next != NULL) run->next->link = run->link;
}

/* New addresses. Memory is used where something is written. */
static void *addresses(size_t length, int protection) {
    void *start = mmap(NULL, length, protection, MAP_PRIVATE | MAP_ANONYMOUS | MAP_NORESERVE, -1, 0);
    return start != MAP_FAILED ? start : NULL;
}

/* It is tried once. If the process has a limit on addresses, the region would use up what malloc needs. */
static bool reserve(void) {
    static bool has_tried;
    struct rlimit limit;
    if (has_tried) return false;
    has_tried = true;
    if (getrlimit(RLIMIT_AS, &limit) != 0 || limit.rlim_cur != RLIM_INFINITY) return false;
    runs = addresses(REGION / RUN * sizeof *runs, PROT_READ | PROT_WRITE);
    char *start = addresses(REGION + HUGE_PAGE, PROT_NONE);
    if (runs == NULL || start == NULL) return false;
    region = (char *)(((uintptr_t)start + HUGE_PAGE - 1) & ~(uintptr_t)(HUGE_PAGE - 1));
    return true;
}

static bool extend(void) {
    size_t step = accessible / 8 / STEP * STEP;
    if (step < STEP) step = STEP;
    if (step > REGION - accessible) step = REGION - accessible;
    if (step == 0 || mprotect(region + accessible, step, PROT_READ | PROT_WRITE) != 0) return false;
    if (accessible >= USUAL_PAGES) madvise(region + accessible, step, MADV_HUGEPAGE);
    accessible += step;
    return true;
}

static struct run *next_of_region(void) {
    if (region == NULL && !reserve()) return NULL;
    if (given == accessible && !extend()) return NULL;
    struct run *run = &runs[given / RUN];
    given += RUN;
    return run;
}

/* A run for blocks of this size. It is in no list yet. */
static struct run *new_run(size_t size) {
    struct run *run = without_size;
    if (run != NULL)
        take_out(run);
    else if ((run = next_of_region()) == NULL)
        return NULL;
    char *start = region + (size_t)(run - runs) * RUN;
    *run = (struct run){.size = size, .fresh = start, .end = start + RUN / size * size};
    return run;
}

static bool has_room(const struct run *run) {
    return run->freed != NULL || run->fresh != run->end;
}

/* The run of a block, or null if the block is malloc's. */
static struct run *run_of(const void *block) {
    size_t place = (size_t)((uintptr_t)block - (uintptr_t)region);
    return region != NULL && place < given ? &runs[place / RUN] : NULL;
}

static void *small_block(size_t units) {
    struct run *run = with_room[units];
    if (run == NULL) {
        run = new_run(units * UNIT);
        if (run == NULL) return NULL;
        insert(&with_room[units], run);
    }
    void *block = run->freed;
    if (block != NULL) {
        run->freed = run->freed->next;
    } else {
        block = run->fresh;
        run->fresh += run->size;
    }
    run->used++;
    if (!has_room(run)) take_out(run);
    return block;
}

/* The last run of a size keeps it, so that blocks that come and go one at a time don't cost a new run each. */
static void free_small(struct run *run, struct block *block) {
    struct run **list = &with_room[run->size / UNIT];
    if (!has_room(run)) insert(list, run);
    block->next = run->freed;
    run->freed = block;
    run->used--;
    if (run->used == 0 && (*list)->next != NULL) {
        take_out(run);
        insert(&without_size, run);
    }
}

static void *allocate(size_t length) {
    void *block = length <= SMALL_MOST ? small_block(units(length)) : NULL;
    return block != NULL ? block : malloc(at_least_one(length));
}

struct tried rattle_alloc(size_t length, size_t alignment) {
    (void)alignment;
    return tried(allocate(length));
}

void rattle_dealloc(void *block) {
    struct run *run = run_of(block);
    if (run != NULL)
        free_small(run, block);
    else
        free(block);
}

/* If it fails, the block stays as it was. A block that gets shorter stays where it is if no other block can be had. */
struct tried rattle_realloc(void *block, size_t kept, size_t length, size_t alignment) {
    (void)alignment;
    struct run *run = run_of(block);
    if (run == NULL) return tried(realloc(block, at_least_one(length)));
    if (units(length) == run->size / UNIT) return tried(block);
    void *other = allocate(length);
    if (other == NULL) return tried(length <= run->size ? block : NULL);
    memcpy(other, block, kept);
    free_small(run, block);
    return tried(other);
}
