/* The proved calls that library.c makes, each in a box: a part of bcs_library.c, after the translated code and library.c. A box
   is an instance of the translated code, with memory of its own. Inputs are copied into it, and answers out of it.

   If the code traps, the call answers BCS_MEMORY. That is so if the stack is too small, the thread's or the one within the
   box's memory, which the code has for what it takes addresses of. The box's memory is then freed, since the code was left
   at any point. So is a memory that has grown beyond KEPT_MOST. The next call makes a new one, and reads the registry again. */

/* ---- The stack. */

/* How much stack a call may use where the system doesn't say how much the thread has: somewhat less than the 512 KiB of the
   smallest threads that systems make unless asked for others. */
#ifndef UNKNOWN_STACK
#define UNKNOWN_STACK ((size_t)384 << 10)
#endif

#if defined(__APPLE__)
#include <pthread.h>
/* The end of the stack that this thread has, or 0. */
static uintptr_t bottom_of_thread(void) {
    const pthread_t thread = pthread_self();
    return (uintptr_t)pthread_get_stackaddr_np(thread) - pthread_get_stacksize_np(thread);
}
#elif defined(__FreeBSD__)
#include <pthread.h>
#include <pthread_np.h>
static uintptr_t bottom_of_thread(void) {
    pthread_attr_t attributes;
    void *bottom = NULL;
    size_t size;
    if (pthread_attr_init(&attributes) != 0) {
        return 0;
    }
    if (pthread_attr_get_np(pthread_self(), &attributes) != 0 || pthread_attr_getstack(&attributes, &bottom, &size) != 0) {
        bottom = NULL;
    }
    pthread_attr_destroy(&attributes);
    return (uintptr_t)bottom;
}
#else
static uintptr_t bottom_of_thread(void) {
    return 0;
}
#endif

/* How much stack a call may use. On Linux library.c knows, and elsewhere it answers SIZE_MAX. */
static size_t stack_of_call(void) {
    const uintptr_t here = (uintptr_t)__builtin_frame_address(0), bottom = bottom_of_thread();
    const size_t left = stack_left();
    if (left != SIZE_MAX) {
        return left;
    }
    return bottom != 0 && bottom < here ? here - bottom : UNKNOWN_STACK;
}

/* ---- A box. */

/* A memory that is larger isn't kept for the next call. 16 MiB of it are the stack within. */
#define KEPT_MOST (48 << 20)
/* No input is longer, and no box could hold one that is. */
#define INPUT_MOST ((u64)1 << 32)
/* How many bytes the output of a call that explains gets first at most, and the message of a refusal. */
#define FIRST_PIECES (16 << 20)
#define FIRST_MESSAGE 4096
#define HANDLE_SIZE 8
#define ANSWER_SIZE 24

struct box {
    Z_bcs_instance_t instance;
    bool is_whole;   /* whether the instance has its memory, and the registry is open in it */
    u64 handle;      /* where the registry's handle is in the memory */
    size_t length;
    uint8_t registry[];
};

/* bcs_question in the box's memory. The translated code was compiled for addresses of 64 bits, so it has this layout on every
   machine. */
struct boxed_question {
    uint32_t size, call, number, second_number, depth, nodes;
    u64 format, format_length, first, first_length, second, second_length, views, views_length;
};
#define IS_BOXED_AT(member, place) \
    _Static_assert(offsetof(struct boxed_question, member) == (place), "boxed_question." #member)
IS_BOXED_AT(size, 0);
IS_BOXED_AT(call, 4);
IS_BOXED_AT(number, 8);
IS_BOXED_AT(second_number, 12);
IS_BOXED_AT(depth, 16);
IS_BOXED_AT(nodes, 20);
IS_BOXED_AT(format, 24);
IS_BOXED_AT(first, 40);
IS_BOXED_AT(second, 56);
IS_BOXED_AT(views, 72);
_Static_assert(sizeof(struct boxed_question) == 88, "boxed_question");

static void put_bytes(struct box *box, u64 place, const void *bytes, size_t length) {
    if (place + length > box->instance.w2c_memory.size) {
        wasm_rt_trap(WASM_RT_TRAP_OOB);
    }
    if (length > 0) {
        memcpy(box->instance.w2c_memory.data + place, bytes, length);
    }
}

static void get_bytes(const struct box *box, void *bytes, u64 place, size_t length) {
    if (place + length > box->instance.w2c_memory.size) {
        wasm_rt_trap(WASM_RT_TRAP_OOB);
    }
    if (length > 0) {
        memcpy(bytes, box->instance.w2c_memory.data + place, length);
    }
}

static u64 get_word(const struct box *box, u64 place) {
    u64 word;
    get_bytes(box, &word, place, sizeof word);
    return word;
}

/* The address of a new block in the box, which is below 4 GiB, or 0. */
static u64 take(struct box *box, u64 length) {
    return (u32)Z_bcsZ_take_memory(&box->instance, length);
}

/* Puts a text of a question into the box at `end`, and returns where it is. */
static u64 put_text(struct box *box, u64 *end, const uint8_t *text, size_t length) {
    const u64 place = *end;
    put_bytes(box, place, text, length);
    *end += length;
    return place;
}

/* Puts a question into the box, and its texts behind it. Returns where these end. */
static u64 put_question(struct box *box, u64 place, const bcs_question *question) {
    u64 end = place + sizeof(struct boxed_question);
    const struct boxed_question boxed = {
        .size = sizeof boxed,
        .call = question->call,
        .number = question->number,
        .second_number = question->second_number,
        .depth = question->depth,
        .nodes = question->nodes,
        .format = put_text(box, &end, question->format, question->format_length),
        .format_length = question->format_length,
        .first = put_text(box, &end, question->first, question->first_length),
        .first_length = question->first_length,
        .second = put_text(box, &end, question->second, question->second_length),
        .second_length = question->second_length,
        .views = put_text(box, &end, question->views, question->views_length),
        .views_length = question->views_length,
    };
    put_bytes(box, place, &boxed, sizeof boxed);
    return end;
}

/* The answer in the box, or BCS_MEMORY if its length is above what the machine can address. */
static bcs_answer get_answer(const struct box *box, u64 place) {
    const u64 status = get_word(box, place), length = get_word(box, place + 16);
    const bcs_answer answer = {(uint32_t)status, (uint32_t)(status >> 32), get_word(box, place + 8), (size_t)length};
    return length <= SIZE_MAX ? answer : plain(BCS_MEMORY);
}

static bool is_too_long(const bcs_question *question) {
    return question->format_length > INPUT_MOST || question->first_length > INPUT_MOST ||
           question->second_length > INPUT_MOST || question->views_length > INPUT_MOST;
}

static u64 length_of_texts(const bcs_question *question) {
    return (u64)question->format_length + question->first_length + question->second_length + question->views_length;
}

/* Whether the call has an output. The answers of the others may have a length, too. */
static bool has_output(uint32_t call) {
    switch (call) {
    case BCS_CHECK:
    case BCS_COMPARE:
    case BCS_SCAN:
    case BCS_PART:
    case BCS_PART_NAMED:
    case BCS_CONTENT:
    case BCS_GROWS: return false;
    default: return true;
    }
}

/* How many bytes the output gets first: for most inputs enough, and else the question is asked again. */
static size_t first_room(const bcs_question *question) {
    if (!has_output(question->call)) {
        return 0;
    }
    const u64 input = length_of_texts(question);
    const u64 pieces = 64 * input < FIRST_PIECES ? 64 * input + 256 : FIRST_PIECES;
    const u64 room = question->call == BCS_EXPLAIN ? pieces : 4 * input + 256;
    return room < SIZE_MAX ? (size_t)room : SIZE_MAX;
}

static bcs_answer ask_once(struct box *box, const bcs_question *question, const struct outputs *to) {
    const u64 rooms = (u64)to->out_length + to->message_length;
    const u64 block = take(box, ANSWER_SIZE + sizeof(struct boxed_question) + length_of_texts(question) + rooms);
    if (block == 0) {
        return plain(BCS_MEMORY);
    }
    const u64 asked = block + ANSWER_SIZE, out = put_question(box, asked, question), message = out + to->out_length;
    Z_bcsZ_bcs_c_ask(&box->instance, block, box->handle, asked, out, to->out_length, message, to->message_length);
    const bcs_answer answer = get_answer(box, block);
    if (answer.status == BCS_DONE) {
        get_bytes(box, to->out, out, least(answer.length, to->out_length));
    } else if (answer.status == BCS_REFUSED && answer.length <= to->message_length) {
        get_bytes(box, to->message, message, answer.length);
    }
    Z_bcsZ_give_memory(&box->instance, block);
    return answer;
}

/* Asks with little room first, and again with enough where the caller has it. */
static bcs_answer ask(struct box *box, const bcs_question *question, const struct outputs *to) {
    if (is_too_long(question)) {
        return plain(BCS_MEMORY);
    }
    struct outputs first = *to;
    first.out_length = has_output(question->call) ? least(to->out_length, first_room(question)) : 0;
    first.message_length = least(to->message_length, FIRST_MESSAGE);
    const bcs_answer answer = ask_once(box, question, &first);
    const bool is_cut = answer.status == BCS_SHORT && answer.length <= to->out_length;
    const bool is_message_cut = answer.status == BCS_REFUSED && answer.length <= to->message_length;
    if (is_cut && answer.length > first.out_length) {
        first.out_length = answer.length;
        return ask_once(box, question, &first);
    }
    if (is_message_cut && answer.length > first.message_length) {
        first.message_length = answer.length;
        return ask_once(box, question, &first);
    }
    return answer;
}

/* Reads the registry into the box's handle. */
static bcs_answer open_registry(struct box *box) {
    const u64 block = take(box, ANSWER_SIZE + (u64)box->length);
    if (block == 0) {
        return plain(BCS_MEMORY);
    }
    put_bytes(box, block + ANSWER_SIZE, box->registry, box->length);
    Z_bcsZ_bcs_c_open(&box->instance, block, box->handle, block + ANSWER_SIZE, box->length);
    const bcs_answer answer = get_answer(box, block);
    Z_bcsZ_give_memory(&box->instance, block);
    return answer;
}

/* Frees the box's memory. */
static void empty(struct box *box) {
    Z_bcs_free(&box->instance);
    box->is_whole = false;
}

/* Makes the box's memory with a handle, and opens the registry in it, if the box has one. */
static bcs_answer fill(struct box *box, bool has_registry) {
    const u64 closed = 0;
    Z_bcs_instantiate(&box->instance);
    box->handle = take(box, HANDLE_SIZE);
    if (box->handle == 0) {
        return plain(BCS_MEMORY);
    }
    put_bytes(box, box->handle, &closed, sizeof closed);
    const bcs_answer answer = has_registry ? open_registry(box) : plain(BCS_DONE);
    box->is_whole = answer.status == BCS_DONE;
    return answer;
}

/* Asks a question, in a box that is filled first if need be. With the question NULL it is only filled. */
static bcs_answer run(struct box *box, bool has_registry, const bcs_question *question, const struct outputs *to) {
    sigjmp_buf here, *const before = on_trap;
    bcs_answer answer;
    box->instance.stack_end = end_of_stack(stack_of_call());
    if (sigsetjmp(here, 0) == 0) {
        on_trap = &here;
        answer = box->is_whole ? plain(BCS_DONE) : fill(box, has_registry);
        if (answer.status == BCS_DONE && question != NULL) {
            answer = ask(box, question, to);
        }
    } else {
        box->is_whole = false;
        answer = plain(BCS_MEMORY);
    }
    on_trap = before;
    if (!box->is_whole || box->instance.w2c_memory.size > KEPT_MOST) {
        empty(box);
    }
    return answer;
}

/* ---- The proved calls, and the heap, as library.c knows them. */

static struct tried rattle_alloc(size_t length, size_t alignment) {
    (void)alignment;
    void *const block = malloc(length);
    return (struct tried){block != NULL, block};
}

static void rattle_dealloc(void *block) {
    free(block);
}

static bcs_answer bcs_c_open(bcs_c_handle *handle, const uint8_t *registry, size_t registry_length) {
    const bool is_possible = registry_length <= INPUT_MOST && registry_length <= SIZE_MAX - sizeof(struct box);
    struct box *const box = is_possible ? calloc(1, sizeof(struct box) + registry_length) : NULL;
    if (box == NULL) {
        return plain(BCS_MEMORY);
    }
    box->length = registry_length;
    if (registry_length > 0) {
        memcpy(box->registry, registry, registry_length);
    }
    const bcs_answer answer = run(box, true, NULL, NULL);
    if (answer.status != BCS_DONE) {
        free(box);
        return answer;
    }
    handle->registry = box;
    return answer;
}

static void bcs_c_close(bcs_c_handle *handle) {
    struct box *const box = handle->registry;
    if (box != NULL) {
        empty(box);
        free(box);
        handle->registry = NULL;
    }
}

/* A question that needs no registry is asked in a box of its own. */
static bcs_answer bcs_c_ask(bcs_c_handle *handle, const bcs_question *question, uint8_t *out, size_t out_length,
                            uint8_t *message, size_t message_length) {
    const struct outputs to = {out, out_length, message, message_length};
    if (handle->registry != NULL) {
        return run(handle->registry, true, question, &to);
    }
    struct box box = {.is_whole = false};
    const bcs_answer answer = run(&box, false, question, &to);
    empty(&box);
    return answer;
}
