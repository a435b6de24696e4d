/* What the C that wasm2c 1.0.32 writes needs of its runtime. It is a part of bcs.c and of bcs_library.c, before the translated
   code, and serves as wabt's own runtime, which keeps state that threads share, doesn't notice that memory can't be had, and
   doesn't know how much stack there is.

   The translated code runs in a box: a block of memory in which all its addresses are offsets. It checks each of them, and
   each function checks how much of the stack is left. If one of these checks fails, the code traps. */
#if !defined(__BYTE_ORDER__) || __BYTE_ORDER__ != __ORDER_LITTLE_ENDIAN__
#error "bcs runs on little-endian machines only: its translated code reads and writes numbers as they are in memory"
#endif

#include <math.h>
#include <setjmp.h>
#include <stdbool.h>
#include <stddef.h>
#include <stdint.h>
#include <stdlib.h>
#include <string.h>

#define WASM_RT_MEMCHECK_SIGNAL_HANDLER 0
#define LIKELY(condition) __builtin_expect(!!(condition), 1)
#define UNLIKELY(condition) __builtin_expect(!!(condition), 0)
#define wasm_rt_memcpy __builtin_memcpy

/* ---- Traps. */

/* Why code traps. The caller treats all of these alike. */
enum trap {
    WASM_RT_TRAP_OOB = 1,
    WASM_RT_TRAP_INT_OVERFLOW,
    WASM_RT_TRAP_DIV_BY_ZERO,
    WASM_RT_TRAP_INVALID_CONVERSION,
    WASM_RT_TRAP_UNREACHABLE,
    WASM_RT_TRAP_EXHAUSTION,
};

/* Where the thread goes on if the translated code traps. Only frames of that code, and of its host, are left so. */
static __thread sigjmp_buf *on_trap;

__attribute__((noreturn)) static void wasm_rt_trap(enum trap trap) {
    siglongjmp(*on_trap, (int)trap);
}

/* Each function begins with this. What it calls without a check, as memcpy, has FRAME_MOST below `stack_end`. */
#define FUNC_PROLOGUE                                                            \
    if (UNLIKELY((uintptr_t)__builtin_frame_address(0) < instance->stack_end)) { \
        wasm_rt_trap(WASM_RT_TRAP_EXHAUSTION);                                   \
    }
#define FUNC_EPILOGUE

/* More than one function of the translated code needs for itself, as any compiler compiles it. */
#define FRAME_MOST ((size_t)48 << 10)

/* Where the stack ends for a call that begins here, if it has this number of bytes left. */
static uintptr_t end_of_stack(size_t left) {
    const uintptr_t here = (uintptr_t)__builtin_frame_address(0);
    return left > FRAME_MOST && left < here ? here - left + FRAME_MOST : here;
}

/* ---- Memory. */

#define PAGE 65536
/* So that a size fits 32 bits. */
#define PAGES_MOST 65535

typedef struct {
    uint8_t *data;
    uint32_t pages, size;
} wasm_rt_memory_t;

/* If it can't be had, the memory has no bytes, and the first use traps. */
static void wasm_rt_allocate_memory(wasm_rt_memory_t *memory, uint32_t pages, uint32_t pages_most) {
    (void)pages_most;
    memory->data = pages <= PAGES_MOST ? calloc(pages, PAGE) : NULL;
    memory->pages = memory->data != NULL ? pages : 0;
    memory->size = memory->pages * PAGE;
}

/* Answers how many pages there were. If the memory can't grow, it stays as it was. */
static uint32_t wasm_rt_grow_memory(wasm_rt_memory_t *memory, uint32_t more) {
    const uint32_t pages = memory->pages;
    if (more > PAGES_MOST - pages) {
        return UINT32_MAX;
    }
    const uint32_t size = (pages + more) * PAGE;
    uint8_t *const data = realloc(memory->data, size);
    if (data == NULL) {
        return UINT32_MAX;
    }
    memset(data + memory->size, 0, size - memory->size);
    *memory = (wasm_rt_memory_t){data, pages + more, size};
    return pages;
}

static void wasm_rt_free_memory(wasm_rt_memory_t *memory) {
    free(memory->data);
    *memory = (wasm_rt_memory_t){NULL, 0, 0};
}
