/* The calls of crates/bcs_c, which are proved. library.c makes the calls of bcs.h of them, and nothing else uses this header.
   tests/header.py compares it with the crate. The README of crates/bcs_calls says what is proved of each call.

   Every call is safe for any input and may run on several threads at once, but only one call at a time may use a handle. */
#ifndef BCS_PROVED_H
#define BCS_PROVED_H

#include "include/bcs.h"

/* A place for a registry that stays open between calls. It is {0} before the first bcs_c_open. */
typedef struct bcs_c_handle {
    void *registry; /* null if no registry is open */
} bcs_c_handle;

bcs_answer bcs_c_open(bcs_c_handle *handle, const uint8_t *registry, size_t registry_length);
void bcs_c_close(bcs_c_handle *handle);
bcs_answer bcs_c_ask(bcs_c_handle *handle, const bcs_question *question, uint8_t *out, size_t out_length, uint8_t *message,
                     size_t message_length);

#endif
