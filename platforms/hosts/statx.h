/* What `statx` stores, as on Linux, without what no host has to store. */
#ifndef BCS_STATX_H
#define BCS_STATX_H

#include <stddef.h>
#include <stdint.h>

struct statx {
    uint32_t mask, block_size;
    uint64_t attributes;
    uint32_t links, owner, group;
    uint16_t mode, unused;
    uint64_t number, length, blocks, known_attributes;
    uint8_t times[64];
    uint32_t device_major, device_minor, of_device_major, of_device_minor;
    uint8_t more[112];
};
_Static_assert(sizeof(struct statx) == 256 && __builtin_offsetof(struct statx, of_device_major) == 136, "the system's layout");

#endif
