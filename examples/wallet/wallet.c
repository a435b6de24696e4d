/* A wallet makes the message that it signs for a transfer on Aptos, and shows what it signs: wallet EXAMPLES */
#include <bcs.h>
#include <stdio.h>
#include <stdlib.h>
#include <string.h>

typedef struct {
    uint8_t *bytes;
    size_t length;
} content;

static void *required(void *found, const char *what) {
    if (!found) {
        fprintf(stderr, "wallet: %s\n", what);
        exit(1);
    }
    return found;
}

static content read_file(const char *folder, const char *name) {
    char path[4096];
    snprintf(path, sizeof path, "%s/%s", folder, name);
    FILE *file = required(fopen(path, "rb"), path);
    content read = {required(malloc(1 << 20), "memory"), 0};
    read.length = fread(read.bytes, 1, 1 << 20, file);
    fclose(file);
    return read;
}

/* Aptos signs the bytes after the SHA3-256 of "APTOS::RawTransaction". */
static const char name[] = "b5e97db07fa0bd0e5598aa3643a9bc6f6693bddc1a9fec9e674a461eaa00b193";

int main(int count, char **arguments) {
    const char *examples = count == 2 ? arguments[1] : ".";
    const content chain = read_file(examples, "aptos_registry.json"), transfer = read_file(examples, "aptos_transfer.json"),
                  damaged = read_file(examples, "aptos_transfer_damaged.json");
    uint8_t format[64], data[1024], out[4096];
    const size_t named = bcs_format("RawTransaction", 14, format, sizeof format);
    bcs_handle *handle;
    if (bcs_open(&handle, chain.bytes, chain.length).status != BCS_DONE) {
        return 1;
    }
    const bcs_answer coded = bcs_handle_to_bcs(handle, format, named, BCS_DEPTH, BCS_NODES, transfer.bytes, transfer.length, data, sizeof data);
    if (coded.status != BCS_DONE) {
        return 1;
    }
    printf("%s", name);
    for (size_t i = 0; i < coded.length; i++) {
        printf("%02x", data[i]);
    }
    const uint32_t nodes = bcs_handle_nodes_for(handle, coded.length);
    const bcs_answer shown = bcs_handle_from_bcs(handle, format, named, BCS_DEPTH, nodes, data, coded.length, out, sizeof out);
    if (shown.status != BCS_DONE) {
        return 1;
    }
    printf("\n%.*s\n", (int)shown.length, (char *)out);

    const bcs_answer refused = bcs_handle_to_bcs(handle, format, named, BCS_DEPTH, BCS_NODES, damaged.bytes, damaged.length, out, sizeof out);
    if (refused.status != BCS_REFUSED || bcs_handle_text_refusal(handle, format, named, BCS_DEPTH, BCS_NODES, damaged.bytes, damaged.length, out, sizeof out).status != BCS_DONE) {
        return 1;
    }
    printf("%s %s\n", bcs_fault_text(refused.fault), (char *)out); /* a NUL ends the place, and the message follows */
    const bcs_answer stopped = bcs_handle_from_bcs(handle, format, named, BCS_DEPTH, nodes, data, 100, out, sizeof out);
    if (stopped.status != BCS_REFUSED || bcs_handle_stop_refusal(handle, format, named, BCS_DEPTH, nodes, data, 100, out, sizeof out).status != BCS_DONE) {
        return 1;
    }
    printf("%s %llu %s\n", bcs_fault_text(stopped.fault), (unsigned long long)stopped.place, (char *)out);
    bcs_close(handle);
    free(chain.bytes);
    free(transfer.bytes);
    free(damaged.bytes);
    return 0;
}
