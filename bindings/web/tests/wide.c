/* wide_wasm64.c, compiled for this machine under other names, against the machine's own arithmetic on 128 bits. */
#define __multi3 own_product
#define __ashlti3 own_shift_left
#define __lshrti3 own_shift_right
#define __ashrti3 own_signed_shift_right
#include "../../../platforms/wasm/wide_wasm64.c"

#include <stdio.h>

#define COUNT 2000000

/* Numbers that look random, the same in each run (xorshift). */
static uint64_t drawn(void) {
    static uint64_t state = 88172645463325252;
    state ^= state << 13;
    state ^= state >> 7;
    state ^= state << 17;
    return state;
}

/* One half in four is all zeros or all ones. */
static uint64_t half(void) {
    uint64_t number = drawn();
    if (drawn() % 4 != 0) return number;
    return number % 2 != 0 ? ~(uint64_t)0 : 0;
}

static int is_right(wide a, wide b, int count) {
    return own_product(a, b) == a * b && own_shift_left(a, count) == a << count &&
           own_shift_right(a, count) == a >> count &&
           own_signed_shift_right(a, count) == (wide)((__int128)a >> count);
}

int main(void) {
    for (int i = 0; i < COUNT; i++) {
        wide a = joined(half(), half()), b = joined(half(), half());
        if (!is_right(a, b, i % 128)) {
            printf("wide: FAILED at draw %d\n", i);
            return 1;
        }
    }
    printf("wide: %d products and shifts are the machine's\n", COUNT);
    return 0;
}
