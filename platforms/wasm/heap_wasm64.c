/* The heap of the module, over the module's own memory. No C library. It is compiled for addresses of 64 bits; with NARROW
   for a module whose addresses are cut to 32 bits behind it.

   The proved code leaves three functions open, and their contracts are in the toolchain's libc/src/heap.rt: an alignment
   divides 16, and a length is below 2 to the 63. A block has a head of 16 bytes with its size, which is a multiple of 16 up
   to SMALL_MOST, and a power of two above. What is given back is kept in a list for each size, for the next request. */

/* The toolchain's clang comes without the headers that have these. */
#define NULL ((void *)0)
#define bool _Bool
#define true 1
#define false 0
typedef __SIZE_TYPE__ size_t;
typedef __UINTPTR_TYPE__ uintptr_t;

_Static_assert(sizeof(size_t) == 8 && sizeof(void *) == 8, "addresses have 64 bits");

#define PAGE 65536
#define SMALL_MOST 1024
#define REQUEST_MOST ((size_t)1 << 40)

/* How many pages the memory may have. Cut to 32 bits, an address below the stack, and so below 0, is one near 4 GiB. So the
   last 64 MiB below that are left out of the memory, and what overruns the stack traps there, too. */
#ifdef NARROW
#define PAGES_MOST (65536 - 1024)
#else
#define PAGES_MOST ((size_t)1 << 48)
#endif

/* What memory.grow answers where it fails is -1 of as many bits as an address has. Cut, that is widened to this. */
#define NOT_GROWN 0xffffffff

/* A block, or NULL if there is no memory. */
struct tried {
    bool ok;
    void *block;
};

struct head {
    size_t size; /* of what is behind the head */
    struct head *next;
};
_Static_assert(sizeof(struct head) == 16, "blocks are aligned to 16 bytes");

extern char __heap_base;

/* What was never given out lies from `fresh` up to `end`. */
static uintptr_t fresh, end;
static struct head *small_free[SMALL_MOST / 16 + 1];
static struct head *large_free[64];

/* Where `block` points when there is no memory, since it is never null. */
static char nothing[1];

static unsigned logarithm(size_t power) {
    return 63 - (unsigned)__builtin_clzl(power);
}

static size_t size_for(size_t length) {
    if (length <= 16) return 16;
    if (length <= SMALL_MOST) return (length + 15) & ~(size_t)15;
    return (size_t)1 << (logarithm(length - 1) + 1);
}

static struct head **free_list(size_t size) {
    return size <= SMALL_MOST ? &small_free[size / 16] : &large_free[logarithm(size)];
}

static bool grow_by(size_t pages) {
    if (pages > PAGES_MOST - end / PAGE) return false;
    return __builtin_wasm_memory_grow(0, pages) < NOT_GROWN;
}

/* Asks for an eighth more than the memory there is, so that it seldom grows, and else for just enough. */
static bool grow(size_t missing) {
    size_t pages = (missing + PAGE - 1) / PAGE;
    size_t ahead = end / PAGE / 8;
    if (!(ahead > pages && grow_by(ahead)) && !grow_by(pages)) return false;
    end = __builtin_wasm_memory_size(0) * PAGE;
    return true;
}

static void *fresh_block(size_t size) {
    size_t needed = size + sizeof(struct head);
    if (fresh == 0) {
        fresh = ((uintptr_t)&__heap_base + 15) & ~(uintptr_t)15;
        end = __builtin_wasm_memory_size(0) * PAGE;
    }
    if (end - fresh < needed && !grow(needed - (end - fresh))) return NULL;
    struct head *head = (struct head *)fresh;
    fresh += needed;
    head->size = size;
    return head + 1;
}

void *take_memory(size_t length) {
    if (length > REQUEST_MOST) return NULL;
    size_t size = size_for(length);
    struct head **list = free_list(size);
    if (*list == NULL) return fresh_block(size);
    struct head *head = *list;
    *list = head->next;
    return head + 1;
}

void give_memory(void *block) {
    struct head *head = (struct head *)block - 1;
    struct head **list = free_list(head->size);
    head->next = *list;
    *list = head;
}

static void tell(struct tried *answer, void *block) {
    answer->ok = block != NULL;
    answer->block = block != NULL ? block : nothing;
}

/* A result of two words is returned through a place that the caller gives, here its first argument. */
void rattle_alloc(struct tried *answer, size_t length, size_t alignment) {
    (void)alignment;
    tell(answer, take_memory(length));
}

/* Where it fails, the block stays as it was. */
void rattle_realloc(struct tried *answer, void *block, size_t kept, size_t length, size_t alignment) {
    (void)alignment;
    if (length <= ((struct head *)block - 1)->size) {
        tell(answer, block);
        return;
    }
    void *longer = take_memory(length);
    tell(answer, longer);
    if (longer == NULL) return;
    __builtin_memcpy(longer, block, kept);
    give_memory(block);
}

void rattle_dealloc(void *block) {
    give_memory(block);
}
