/* A value with 500 containers in one another, each with 32 levels of formats, on threads with stacks of several sizes, on one
   handle. A call answers with the value's length, or BCS_STACK or BCS_MEMORY, and never overruns the stack. Where the library knows how
   much stack a thread has, 8 MiB are enough if the compiler optimizes for a machine of 64 bits, and 64 MiB otherwise. */
#include "checks.h"
#include <pthread.h>

#define CONTAINERS 500
#define LEVELS 32
#define LEVEL "{\"OPTION\":"
#define FORMAT "{\"TYPENAME\":\"C1\"}"
#define KIB ((size_t)1 << 10)

static bcs_handle *handle;
static char registry[CONTAINERS * (LEVELS * sizeof LEVEL + LEVELS + 100)];
static uint8_t bytes[(CONTAINERS - 1) * LEVELS];

static void make_registry(void) {
    char *at = registry;
    at += sprintf(at, "{");
    for (int number = 1; number < CONTAINERS; number++) {
        at += sprintf(at, "\"C%d\":{\"NEWTYPESTRUCT\":", number);
        for (int level = 0; level < LEVELS; level++) {
            at += sprintf(at, "%s", LEVEL);
        }
        at += sprintf(at, "{\"TYPENAME\":\"C%d\"}", number + 1);
        for (int level = 0; level <= LEVELS; level++) {
            at += sprintf(at, "}");
        }
        at += sprintf(at, ",");
    }
    sprintf(at, "\"C%d\":\"UNITSTRUCT\"}", CONTAINERS);
    memset(bytes, 1, sizeof bytes);
}

/* Scans the value, or with the depth 1 finds it too deep. */
static bcs_answer scan(uint32_t depth) {
    return bcs_handle_scan(handle, (const uint8_t *)FORMAT, sizeof FORMAT - 1, depth, BCS_NODES, bytes, sizeof bytes);
}

static void *scan_on_thread(void *answer) {
    *(bcs_answer *)answer = scan(BCS_DEPTH);
    return NULL;
}

static bcs_answer scanned_on(size_t stack) {
    pthread_attr_t attributes;
    pthread_t thread;
    bcs_answer answer;
    CHECK(pthread_attr_init(&attributes) == 0 && pthread_attr_setstacksize(&attributes, stack) == 0);
    CHECK(pthread_create(&thread, &attributes, scan_on_thread, &answer) == 0 && pthread_join(thread, NULL) == 0);
    CHECK(pthread_attr_destroy(&attributes) == 0);
    return answer;
}

int main(void) {
    static const size_t sizes[] = {128, 256, 512, 1024, 2048, 8192, 65536};
    make_registry();
    CHECK(bcs_open(&handle, (const uint8_t *)registry, strlen(registry)).status == BCS_DONE);
    for (size_t number = 0; number < sizeof sizes / sizeof *sizes; number++) {
        const bcs_answer answer = scanned_on(sizes[number] * KIB);
        const bool is_done = answer.status == BCS_DONE && answer.length == sizeof bytes;
        const int is_short = answer.status == BCS_STACK || answer.status == BCS_MEMORY;
        CHECK(is_done || (is_short && answer.fault == BCS_FAULT_NONE && answer.length == 0));
        printf("stack: %lu KiB: %s\n", (unsigned long)sizes[number],
               is_done ? "done" : answer.status == BCS_STACK ? "BCS_STACK" : "BCS_MEMORY");
#if defined(__linux__) || defined(__APPLE__) || defined(__FreeBSD__)
#if defined(__OPTIMIZE__) && UINTPTR_MAX > UINT32_MAX
        CHECK(is_done || sizes[number] < 8192);
#else
        CHECK(is_done || sizes[number] < 65536);
#endif
#endif
        /* The handle serves the next call. */
        CHECK(scan(1).fault == BCS_STOP_TOO_DEEP && scan(1).place == 32);
    }
    bcs_close(handle);
    return 0;
}
