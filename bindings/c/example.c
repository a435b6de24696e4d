/* A payment to bytes and back: see bindings/c/README.md.

       cc example.c $(pkg-config --cflags --libs bcs) -o example && ./example

   prints

       03626f620700000000000000
       {"amount":"7","to":"bob"}
       refused: EndOfInput at 11, .amount: expected U64, found the end of the input */
#include <bcs.h>
#include <stdio.h>
#include <string.h>

/* Calls take bytes with their length, and C's strings are of char. */
#define BYTES(text) (const uint8_t *)(text), strlen(text)

int main(void) {
    /* A format is JSON. bcs_format writes the format of a container's name. */
    uint8_t format[100], bytes[100], text[100], message[100];
    const size_t format_length = bcs_format("Payment", 7, format, sizeof format);

    /* The registry is read once, for any number of values and threads. */
    bcs_handle *handle;
    if (bcs_open(&handle, BYTES("{\"Payment\":{\"STRUCT\":[{\"to\":\"STR\"},{\"amount\":\"U64\"}]}}")).status != BCS_DONE) {
        return 1;
    }

    /* If 100 bytes weren't enough, the status would be BCS_SHORT, and `length` the number of bytes needed. */
    const bcs_answer coded = bcs_handle_to_bcs(handle, format, format_length, BCS_DEPTH, BCS_NODES,
                                               BYTES("{\"to\":\"bob\",\"amount\":7}"), bytes, sizeof bytes);
    if (coded.status != BCS_DONE) {
        return 1;
    }
    for (size_t i = 0; i < coded.length; i++) {
        printf("%02x", bytes[i]);
    }

    /* Bytes from strangers get a limit on nodes. */
    const uint32_t nodes = bcs_handle_nodes_for(handle, coded.length);
    const bcs_answer shown = bcs_handle_from_bcs(handle, format, format_length, BCS_DEPTH, nodes, bytes, coded.length, text,
                                                 sizeof text);
    if (shown.status != BCS_DONE) {
        return 1;
    }
    printf("\n%.*s\n", (int)shown.length, (const char *)text);

    /* Without its last byte it isn't a payment. bcs_ask also says where, and what was expected there: a place, a NUL, and a message. */
    const bcs_question question = {
        .size = sizeof question,
        .call = BCS_FROM_BCS,
        .depth = BCS_DEPTH,
        .nodes = nodes,
        .format = format,
        .format_length = format_length,
        .first = bytes,
        .first_length = coded.length - 1,
    };
    const bcs_answer damaged = bcs_ask(handle, &question, text, sizeof text, message, sizeof message);
    if (damaged.status != BCS_REFUSED || damaged.length == 0 || damaged.length > sizeof message) {
        return 1;
    }
    const char *const place = (const char *)message; /* in bytes, a place has no NUL */
    const size_t place_length = strlen(place);
    printf("refused: %s at %llu, %s: %.*s\n", bcs_fault_text(damaged.fault), (unsigned long long)damaged.place, place,
           (int)(damaged.length - place_length - 1), place + place_length + 1);
    bcs_close(handle);
    return 0;
}
