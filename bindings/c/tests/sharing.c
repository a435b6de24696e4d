/* How a handle is shared: that the proved code never has two calls on one of its handles, and how often it reads the registry.
   `test` links this with library.c and puts the functions here between that and the proved calls. With the sanitizer of threads
   it sees what the proved code does with a handle, which it couldn't see there. */
#include "../proved.h"
#include "questions.h"
#include <pthread.h>

#define SLOTS 32
#define THREADS (SLOTS + 8)
static const struct slice registry = OF("{\"A\":{\"NEWTYPESTRUCT\":\"U8\"}}");
static const struct question question = {BCS_SCAN, OF(""), OF("{\"TYPENAME\":\"A\"}"), OF("7"), OF(""), STANDARD, 0};

static unsigned opened;
static int open_now;
static pthread_barrier_t all_are_inside;
static bool is_waiting;

bcs_answer __real_bcs_c_open(bcs_c_handle *handle, const uint8_t *text, size_t text_length);
void __real_bcs_c_close(bcs_c_handle *handle);
bcs_answer __real_bcs_c_ask(bcs_c_handle *handle, const bcs_question *asked, uint8_t *out, size_t out_length, uint8_t *message,
                            size_t message_length);
bcs_answer __wrap_bcs_c_open(bcs_c_handle *handle, const uint8_t *text, size_t text_length);
void __wrap_bcs_c_close(bcs_c_handle *handle);
bcs_answer __wrap_bcs_c_ask(bcs_c_handle *handle, const bcs_question *asked, uint8_t *out, size_t out_length, uint8_t *message,
                            size_t message_length);

/* A call takes the registry out of the handle and puts it back. */
static void use(bcs_c_handle *handle) {
    void *volatile *const place = &handle->registry;
    void *const taken = *place;
    *place = NULL;
    *place = taken;
}

bcs_answer __wrap_bcs_c_open(bcs_c_handle *handle, const uint8_t *text, size_t text_length) {
    CHECK(handle->registry == NULL);
    use(handle);
    const bcs_answer answer = __real_bcs_c_open(handle, text, text_length);
    __atomic_add_fetch(&opened, 1, __ATOMIC_SEQ_CST);
    __atomic_add_fetch(&open_now, answer.status == BCS_DONE, __ATOMIC_SEQ_CST);
    return answer;
}

void __wrap_bcs_c_close(bcs_c_handle *handle) {
    __atomic_sub_fetch(&open_now, handle->registry != NULL, __ATOMIC_SEQ_CST);
    use(handle);
    __real_bcs_c_close(handle);
}

bcs_answer __wrap_bcs_c_ask(bcs_c_handle *handle, const bcs_question *asked, uint8_t *out, size_t out_length, uint8_t *message,
                            size_t message_length) {
    use(handle);
    if (is_waiting) {
        pthread_barrier_wait(&all_are_inside);
    }
    const bcs_answer answer = __real_bcs_c_ask(handle, asked, out, out_length, message, message_length);
    use(handle);
    return answer;
}

static void *scan_often(void *handle) {
    for (int round = 0; round < (is_waiting ? 1 : 500); round++) {
        CHECK(are_same(ask_on(BY_NAME, handle, &question, NULL, 0), (bcs_answer){.status = BCS_DONE, .length = 1}));
    }
    return NULL;
}

/* Threads that are all inside a call at once, or come and go. */
static void scan_on_threads(bcs_handle *handle, unsigned count, bool is_at_once) {
    pthread_t threads[THREADS];
    is_waiting = is_at_once;
    CHECK(pthread_barrier_init(&all_are_inside, NULL, count) == 0);
    for (unsigned number = 0; number < count; number++) {
        CHECK(pthread_create(&threads[number], NULL, scan_often, handle) == 0);
    }
    for (unsigned number = 0; number < count; number++) {
        CHECK(pthread_join(threads[number], NULL) == 0);
    }
    CHECK(pthread_barrier_destroy(&all_are_inside) == 0);
}

/* So many calls at once have the registry open so often, and more than before if there were never so many. */
static void at_once(bcs_handle *handle, unsigned count, unsigned wanted_opened, int wanted_open) {
    opened = 0;
    scan_on_threads(handle, count, true);
    CHECK(opened == wanted_opened && open_now == wanted_open);
}

int main(void) {
    bcs_handle *handle;
    CHECK(bcs_open(&handle, registry.at, registry.length).status == BCS_DONE && opened == 1);
    scan_often(handle);
    CHECK(opened == 1 && open_now == 1);
    at_once(handle, 1, 0, 1);
    at_once(handle, 3, 2, 3);
    at_once(handle, 2, 0, 3);
    at_once(handle, SLOTS, SLOTS - 3, SLOTS);
    at_once(handle, THREADS, THREADS - SLOTS, SLOTS);
    at_once(handle, THREADS, THREADS - SLOTS, SLOTS);
    bcs_close(handle);
    CHECK(open_now == 0);

    CHECK(bcs_open(&handle, registry.at, registry.length).status == BCS_DONE);
    scan_on_threads(handle, THREADS, false);
    CHECK(open_now >= 1 && open_now <= SLOTS);
    bcs_close(handle);
    CHECK(open_now == 0);
    return 0;
}
