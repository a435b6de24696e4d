/* Times the calls of the C library for bench/values.py: c EXAMPLES */
#define _POSIX_C_SOURCE 200809L
#include "bcs.h"
#include <stdio.h>
#include <stdlib.h>
#include <string.h>
#include <time.h>

enum { RUNS = 7, RUN = 100000, ROOM = 4096, MEGABYTE = 1000000, ITEMS = 8 };

typedef struct {
    const uint8_t *bytes;
    size_t length;
} slice;

/* A transaction of Aptos, as a wallet has it. Its slices stay in the bytes that it was decoded from. */
typedef struct tag {
    uint8_t address[32];
    slice module, name;
    size_t argument_count;
    struct tag *arguments;
} tag;

typedef struct {
    uint8_t sender[32], module_address[32];
    uint64_t sequence_number, max_gas_amount, gas_unit_price, expiration_timestamp_secs;
    slice module_name, function, arguments[ITEMS];
    size_t tag_count, argument_count;
    tag tags[ITEMS];
    uint8_t chain_id;
} transaction;

/* The codec for this one type, as it is written by hand. It checks less. */
enum { ENTRY_FUNCTION = 2, STRUCT = 7 };

static uint8_t *put_length(uint8_t *out, size_t length) {
    for (; length >= 0x80; length >>= 7) *out++ = (uint8_t)(length | 0x80);
    *out++ = (uint8_t)length;
    return out;
}

static uint8_t *put_raw(uint8_t *out, const void *bytes, size_t length) {
    memcpy(out, bytes, length);
    return out + length;
}

static uint8_t *put_slice(uint8_t *out, slice part) {
    return put_raw(put_length(out, part.length), part.bytes, part.length);
}

static uint8_t *put_tags(uint8_t *out, const tag *tags, size_t count) {
    out = put_length(out, count);
    for (size_t i = 0; i < count; i++) {
        *out++ = STRUCT;
        out = put_slice(put_slice(put_raw(out, tags[i].address, 32), tags[i].module), tags[i].name);
        out = put_tags(out, tags[i].arguments, tags[i].argument_count);
    }
    return out;
}

static size_t plain_encode(const transaction *value, uint8_t *room) {
    uint8_t *out = put_raw(put_raw(room, value->sender, 32), &value->sequence_number, 8);
    *out++ = ENTRY_FUNCTION;
    out = put_slice(put_slice(put_raw(out, value->module_address, 32), value->module_name), value->function);
    out = put_tags(out, value->tags, value->tag_count);
    out = put_length(out, value->argument_count);
    for (size_t i = 0; i < value->argument_count; i++) out = put_slice(out, value->arguments[i]);
    out = put_raw(put_raw(out, &value->max_gas_amount, 8), &value->gas_unit_price, 8);
    out = put_raw(out, &value->expiration_timestamp_secs, 8);
    *out++ = value->chain_id;
    return (size_t)(out - room);
}

typedef struct {
    const uint8_t *next, *end;
    int is_bad;
} reader;

static const uint8_t *take(reader *from, size_t length) {
    static const uint8_t none[32];
    if (from->is_bad || (size_t)(from->end - from->next) < length) {
        from->is_bad = 1;
        return none;
    }
    from->next += length;
    return from->next - length;
}

static uint64_t take_number(reader *from) {
    uint64_t number;
    memcpy(&number, take(from, 8), 8);
    return number;
}

static size_t take_length(reader *from) {
    size_t length = 0;
    for (int shift = 0; shift < 32; shift += 7) {
        const uint8_t byte = *take(from, 1);
        length |= (size_t)(byte & 0x7f) << shift;
        if (byte < 0x80) {
            if (byte == 0 && shift > 0) break;
            return length;
        }
    }
    from->is_bad = 1;
    return 0;
}

static slice take_slice(reader *from) {
    const size_t length = take_length(from);
    const uint8_t *bytes = take(from, length);
    return (slice){bytes, from->is_bad ? 0 : length};
}

static size_t take_count(reader *from) {
    const size_t count = take_length(from);
    if (count <= ITEMS) return count;
    from->is_bad = 1;
    return 0;
}

/* (this wallet knows no tags with arguments) */
static void take_tag(reader *from, tag *into) {
    if (*take(from, 1) != STRUCT) from->is_bad = 1;
    memcpy(into->address, take(from, 32), 32);
    into->module = take_slice(from);
    into->name = take_slice(from);
    into->argument_count = take_length(from);
    into->arguments = NULL;
    if (into->argument_count != 0) from->is_bad = 1;
}

static int plain_decode(const uint8_t *bytes, size_t length, transaction *value) {
    reader from = {bytes, bytes + length, 0};
    memcpy(value->sender, take(&from, 32), 32);
    value->sequence_number = take_number(&from);
    if (*take(&from, 1) != ENTRY_FUNCTION) from.is_bad = 1;
    memcpy(value->module_address, take(&from, 32), 32);
    value->module_name = take_slice(&from);
    value->function = take_slice(&from);
    value->tag_count = take_count(&from);
    for (size_t i = 0; i < value->tag_count; i++) take_tag(&from, &value->tags[i]);
    value->argument_count = take_count(&from);
    for (size_t i = 0; i < value->argument_count; i++) value->arguments[i] = take_slice(&from);
    value->max_gas_amount = take_number(&from);
    value->gas_unit_price = take_number(&from);
    value->expiration_timestamp_secs = take_number(&from);
    value->chain_id = *take(&from, 1);
    return !from.is_bad && from.next == from.end;
}

static void put_digits(char *out, const uint8_t *bytes, size_t length) {
    for (size_t i = 0; i < length; i++) {
        out[2 * i] = "0123456789abcdef"[bytes[i] >> 4];
        out[2 * i + 1] = "0123456789abcdef"[bytes[i] & 15];
    }
}

static uint8_t value_of(char digit) {
    return (uint8_t)(digit <= '9' ? digit - '0' : (digit | 0x20) - 'a' + 10);
}

static void bytes_of(const char *digits, size_t length, uint8_t *out) {
    for (size_t i = 0; i < length / 2; i++) out[i] = (uint8_t)(value_of(digits[2 * i]) << 4 | value_of(digits[2 * i + 1]));
}

/* What is measured. */
static bcs_handle *handle;
static uint8_t format[100], *text, *data, *out, *bytes;
static size_t format_length, text_length, data_length;
static transaction value;

static void fail(const char *what) {
    fprintf(stderr, "c: %s\n", what);
    exit(1);
}

static void encode_text(void) {
    const bcs_answer answer = bcs_handle_to_bcs(handle, format, format_length, BCS_DEPTH, BCS_NODES, text, text_length, out,
                                                2 * MEGABYTE + ROOM);
    if (answer.status != BCS_DONE || answer.length != data_length) fail("encode");
}

static void decode_text(void) {
    const bcs_answer answer = bcs_handle_from_bcs(handle, format, format_length, BCS_DEPTH, BCS_NODES, data, data_length, out,
                                                  2 * MEGABYTE + ROOM);
    if (answer.status != BCS_DONE) fail("decode");
}

static void encode_refused(void) {
    const bcs_answer answer = bcs_handle_to_bcs(handle, format, format_length, BCS_DEPTH, BCS_NODES, text, text_length, out,
                                                2 * MEGABYTE + ROOM);
    if (answer.status != BCS_REFUSED) fail("not refused");
}

static void decode_refused(void) {
    const bcs_answer answer = bcs_handle_from_bcs(handle, format, format_length, BCS_DEPTH, BCS_NODES, data, data_length - 1, out,
                                                  2 * MEGABYTE + ROOM);
    if (answer.status != BCS_REFUSED) fail("not refused");
}

static void encode_plain(void) {
    if (plain_encode(&value, out) != data_length) fail("the plain encoder");
}

static void decode_plain(void) {
    if (!plain_decode(data, data_length, &value)) fail("the plain decoder");
}

static void encode_plain_bytes(void) {
    put_slice(out, (slice){bytes, MEGABYTE});
}

static void decode_plain_bytes(void) {
    reader from = {data, data + data_length, 0};
    const slice part = take_slice(&from);
    memcpy(out, part.bytes, part.length);
    if (from.is_bad || from.next != from.end) fail("the plain decoder");
}

static double measure(void (*call)(void), long count) {
    const clock_t start = clock();
    for (long i = 0; i < count; i++) call();
    return (double)(clock() - start) * 1e6 / CLOCKS_PER_SEC;
}

/* Prints the microseconds of processor time for a call, the least of all runs. */
static void report(const char *name, void (*call)(void)) {
    long count = 1;
    while (measure(call, count) < RUN / 10) count *= 2;
    count = (long)((double)count * RUN / measure(call, count)) + 1;
    double least = 1e18;
    for (int i = 0; i < RUNS; i++) {
        const double time = measure(call, count);
        least = time < least ? time : least;
    }
    printf("%s %f\n", name, least / (double)count);
}

static size_t read_file(const char *folder, const char *name, uint8_t *into) {
    char path[4096];
    snprintf(path, sizeof path, "%s/%s", folder, name);
    FILE *file = fopen(path, "rb");
    if (file == NULL) fail(path);
    const size_t length = fread(into, 1, MEGABYTE, file);
    fclose(file);
    return length;
}

int main(int count, char **words) {
    if (count != 2) fail("c EXAMPLES");
    text = malloc(2 * MEGABYTE + ROOM);
    data = malloc(2 * MEGABYTE + ROOM);
    out = malloc(2 * MEGABYTE + ROOM);
    bytes = malloc(MEGABYTE);
    size_t length = read_file(words[1], "aptos_registry.json", text);
    if (bcs_open(&handle, text, length).status != BCS_DONE) fail("open");
    text_length = read_file(words[1], "aptos_transfer.json", text);
    length = read_file(words[1], "aptos_transfer.hex", out) / 2;
    bytes_of((char *)out, 2 * length, data);
    data_length = length;
    format_length = bcs_format("RawTransaction", 14, format, sizeof format);
    decode_plain();
    encode_plain();
    if (memcmp(out, data, data_length) != 0) fail("the plain codec");
    report("transfer encode text", encode_text);
    report("transfer encode plain", encode_plain);
    report("transfer decode text", decode_text);
    report("transfer decode text-refused", decode_refused);
    text[text_length] = '\0';
    memcpy(strstr((char *)text, ": 4\n"), ":-4", 3);
    report("transfer encode text-refused", encode_refused);
    report("transfer decode plain", decode_plain);

    for (uint32_t i = 0; i < MEGABYTE; i++) bytes[i] = (uint8_t)(i * 2654435761u >> 24);
    format_length = (size_t)sprintf((char *)format, "\"BYTES\"");
    text_length = 2 * MEGABYTE + 2;
    text[0] = text[text_length - 1] = '"';
    put_digits((char *)text + 1, bytes, MEGABYTE);
    data_length = (size_t)(put_slice(data, (slice){bytes, MEGABYTE}) - data);
    report("bytes encode text", encode_text);
    report("bytes encode plain", encode_plain_bytes);
    report("bytes decode text", decode_text);
    report("bytes decode plain", decode_plain_bytes);
    bcs_close(handle);
    return 0;
}
