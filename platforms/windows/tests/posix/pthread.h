/* Threads as the tests of bindings/c make them, with stacks of the size that they ask for. Each fills its stack before it begins, and
   looks at its end what of it was used. A test that gives memory for the stack gets one of the same size instead. Wine gives each
   thread 1 MiB at least, so a thread first spends what it has more. */
#ifndef TESTS_PTHREAD_H
#define TESTS_PTHREAD_H

#include <malloc.h>
#include <stdint.h>
#include <sys/mman.h>

/* What no call may use: what library.c leaves, without the pages at the end that Windows needs. */
#define LEFT_ALONE (48 << 10)
#define OF_WINDOWS (16 << 10)
#define FILLED 0xa5a5a5a5a5a5a5a5

typedef HANDLE pthread_t;
typedef struct {
    size_t size;
} pthread_attr_t;

struct started {
    void *(*act)(void *);
    void *data;
    size_t size;
};

static inline int pthread_attr_init(pthread_attr_t *attributes) {
    attributes->size = 8 << 20;
    return 0;
}

static inline int pthread_attr_destroy(pthread_attr_t *attributes) {
    (void)attributes;
    return 0;
}

static inline int pthread_attr_setstacksize(pthread_attr_t *attributes, size_t size) {
    attributes->size = size;
    return 0;
}

static inline int pthread_attr_setstack(pthread_attr_t *attributes, void *stack, size_t size) {
    (void)stack;
    return pthread_attr_setstacksize(attributes, size);
}

__attribute__((noinline)) static void run_on_stack(const struct started *started, uintptr_t bottom) {
    volatile uint64_t *const last = (volatile uint64_t *)(bottom + OF_WINDOWS);
    volatile uint64_t *at = (volatile uint64_t *)(((uintptr_t)__builtin_frame_address(0) - 512) & ~(uintptr_t)7);
    const uintptr_t filled = (uintptr_t)at;
    while (at > last) {
        *--at = FILLED;
    }
    started->act(started->data);
    while ((uintptr_t)at < filled && *at == FILLED) {
        at++;
    }
    if (filled > bottom + started->size || (uintptr_t)at < bottom + LEFT_ALONE) {
        fprintf(stderr, "stack: of %llu bytes, which should be %llu, the end was used up to %llu\n", (unsigned long long)(filled - bottom),
                (unsigned long long)started->size, (unsigned long long)((uintptr_t)at - bottom));
        exit(1);
    }
}

static DWORD WINAPI start_thread(void *data) {
    const struct started started = *(struct started *)data;
    const uintptr_t here = (uintptr_t)__builtin_frame_address(0);
    uintptr_t bottom, top;
    free(data);
    GetCurrentThreadStackLimits(&bottom, &top);
    if (here > bottom + started.size) {
        volatile char *const spent = alloca(here - bottom - started.size);
        *spent = 0;
    }
    run_on_stack(&started, bottom);
    return 0;
}

static inline int pthread_create(pthread_t *thread, const pthread_attr_t *attributes, void *(*act)(void *), void *data) {
    struct started *const started = malloc(sizeof *started);
    const size_t size = attributes != NULL ? attributes->size : 8 << 20;
    *started = (struct started){act, data, size};
    *thread = CreateThread(NULL, size, start_thread, started, STACK_SIZE_PARAM_IS_A_RESERVATION, NULL);
    return *thread != NULL ? 0 : -1;
}

static inline int pthread_join(pthread_t thread, void **answer) {
    (void)answer;
    const bool has_ended = WaitForSingleObject(thread, INFINITE) == WAIT_OBJECT_0;
    return has_ended && CloseHandle(thread) ? 0 : -1;
}

#endif
