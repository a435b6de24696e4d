/* Handles from bcs_open to bcs_close. driver.c asks the rows on a handle that stays open, and without one, and threads.c uses handles
   on several threads. */
#include "questions.h"

#define ON_VALUE(the_call, its_input) \
    .call = the_call, .format = OF("{\"TYPENAME\":\"A\"}"), .first = OF(its_input), .second = OF(its_input), STANDARD
static const struct slice number = OF("{\"A\":{\"NEWTYPESTRUCT\":\"U8\"}}");
static const struct slice truth = OF("{\"A\":{\"NEWTYPESTRUCT\":\"BOOL\"}}");
static const struct slice no_registry = OF("{\"A\":{\"NEWTYPESTRUCT\":\"U9\"}}");

/* Calls that are done if the registry `number` is open, with their outputs. */
static const struct {
    struct question question;
    struct slice output;
} questions[] = {
    {{ON_VALUE(BCS_CHECK, "")}, OF("")},
    {{ON_VALUE(BCS_TO_BCS, "7")}, OF("\x07")},
    {{ON_VALUE(BCS_FROM_BCS, "\x07")}, OF("7")},
    {{ON_VALUE(BCS_NORMALISE, " 7")}, OF("7")},
    {{ON_VALUE(BCS_COMPARE, "7")}, OF("")},
    {{ON_VALUE(BCS_SCAN, "\x07")}, OF("")},
    {{.call = BCS_PART, .format = OF("{\"TYPENAME\":\"A\"}"), .first = OF("\x07"), .second = OF("inner"), STANDARD}, OF("")},
    {{ON_VALUE(BCS_EXPLAIN, "\x07"), .number = BCS_TREE},
     OF("     0  07                                                                U8 7                            .\n")},
};
#define ROOM 200

static bcs_handle *open_one(struct slice registry) {
    /* The handle keeps no pointer to the text. */
    const struct slice copy = slice_of((const char *)registry.at, registry.length);
    bcs_handle *handle = NULL;
    CHECK(are_same(bcs_open(&handle, copy.at, copy.length), (bcs_answer){.status = BCS_DONE}));
    CHECK(handle != NULL);
    drop(copy);
    return handle;
}

/* Each call on the handle, twice, since a call leaves the handle as it was. */
static void has_number(bcs_handle *handle) {
    uint8_t out[ROOM];
    for (size_t row = 0; row < 2 * (sizeof questions / sizeof *questions); row++) {
        const struct question *question = &questions[row / 2].question;
        const struct slice output = questions[row / 2].output;
        memset(out, UNTOUCHED, ROOM);
        CHECK(ask_on(BY_QUESTION, handle, question, out, ROOM).status == BCS_DONE);
        CHECK(memcmp(out, output.at, output.length) == 0 && are_untouched(out + output.length, ROOM - output.length));
    }
}

static void has_truth(bcs_handle *handle) {
    const struct question seven = {ON_VALUE(BCS_SCAN, "\x07")};
    CHECK(are_same(ask_on(BY_QUESTION, handle, &seven, NULL, 0), (bcs_answer){.status = BCS_REFUSED, .fault = BCS_STOP_BAD_BOOL}));
}

static void refused_registries_open_nothing(void) {
    bcs_handle *const before = open_one(number), *handle = before;
    CHECK(are_same(bcs_open(&handle, no_registry.at, no_registry.length),
                   (bcs_answer){.status = BCS_REGISTRY, .fault = BCS_REGISTRY_BAD_SHAPE}));
    CHECK(handle == NULL);
    handle = before;
    CHECK(are_same(bcs_open(&handle, NULL, 0), (bcs_answer){.status = BCS_REGISTRY, .fault = BCS_REGISTRY_NOT_JSON}));
    CHECK(handle == NULL);
    has_number(before);
    bcs_close(before);
}

/* The name of a container counts like that of a field, which decoded values repeat. */
static void long_names_lower_the_nodes(void) {
    static const struct {
        size_t name, bytes;
        uint32_t nodes;
    } rows[] = {
        {1, 0, 65536},     {1, 5, 65616},        {64, 5, 65616},  /* up to 64 bytes: 16 * bytes + 65536 */
        {128, 0, 32768},   {128, 5, 32808},      {100, 5, 41994}, /* above: * 64 / name, rounded down */
        {4096, 0, 1024},   {4096, 1000000, 2000000},              /* but at least 2 a byte */
        {128, SIZE_MAX, 4294967295},
    };
    for (size_t row = 0; row < sizeof rows / sizeof *rows; row++) {
        char registry[4200];
        const int length = snprintf(registry, sizeof registry, "{\"%0*d\":\"UNITSTRUCT\"}", (int)rows[row].name, 0);
        bcs_handle *const handle = open_one((struct slice){(uint8_t *)registry, (size_t)length});
        CHECK(bcs_handle_nodes_for(handle, rows[row].bytes) == rows[row].nodes);
        bcs_close(handle);
    }
    CHECK(bcs_handle_nodes_for(NULL, 5) == bcs_nodes_for(5));
}

int main(void) {
    bcs_close(NULL);
    long_names_lower_the_nodes();
    refused_registries_open_nothing();
    bcs_handle *one = open_one(number), *other = open_one(truth), *third = open_one(number);
    has_number(one);
    has_truth(other);
    bcs_close(other);
    has_number(one);
    bcs_close(one);
    has_number(third);
    other = open_one(truth);
    has_truth(other);
    has_number(third);
    bcs_close(third);
    bcs_close(other);
    return 0;
}
