/* Coroutines as tests/stack.c of bindings/c makes them, by fibers. */
#ifndef TESTS_UCONTEXT_H
#define TESTS_UCONTEXT_H

#include <sys/mman.h>

typedef struct context {
    struct {
        size_t ss_size;
        void *ss_sp;
    } uc_stack;
    struct context *uc_link;
    void (*act)(void);
    void *fiber;
} ucontext_t;

static inline int getcontext(ucontext_t *context) {
    memset(context, 0, sizeof *context);
    return 0;
}

static void CALLBACK run_fiber(void *data) {
    const ucontext_t *const context = data;
    context->act();
    SwitchToFiber(context->uc_link->fiber);
}

static inline void makecontext(ucontext_t *context, void (*act)(void), int count) {
    (void)count;
    context->act = act;
    context->fiber = CreateFiberEx(0, context->uc_stack.ss_size, 0, run_fiber, context);
}

static inline int swapcontext(ucontext_t *from, ucontext_t *to) {
    from->fiber = ConvertThreadToFiber(NULL);
    if (from->fiber == NULL || to->fiber == NULL) {
        return -1;
    }
    SwitchToFiber(to->fiber);
    DeleteFiber(to->fiber);
    return ConvertFiberToThread() ? 0 : -1;
}

#endif
