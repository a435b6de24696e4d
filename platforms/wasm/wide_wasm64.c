/* The arithmetic on 128 bits that WebAssembly lacks: what clang calls for it, by the names that clang gives.
   It is compiled without optimizing, since clang would find the product in __multi3, and make it by a call of __multi3. */
typedef __INT64_TYPE__ int64_t;
typedef __UINT64_TYPE__ uint64_t;
typedef unsigned __int128 wide;

static uint64_t low(wide number) {
    return (uint64_t)number;
}

/* (A shift of 64 is no call, but two words that change places.) */
static uint64_t high(wide number) {
    return (uint64_t)(number >> 64);
}

static wide joined(uint64_t high, uint64_t low) {
    return (wide)high << 64 | low;
}

wide __multi3(wide a, wide b) {
    uint64_t a_low = low(a) & 0xffffffff, a_high = low(a) >> 32;
    uint64_t b_low = low(b) & 0xffffffff, b_high = low(b) >> 32;
    uint64_t middle = (a_low * b_low >> 32) + (a_low * b_high & 0xffffffff) + (a_high * b_low & 0xffffffff);
    uint64_t carried = a_high * b_high + (a_low * b_high >> 32) + (a_high * b_low >> 32) + (middle >> 32);
    return joined(carried + low(a) * high(b) + high(a) * low(b), low(a) * low(b));
}

wide __ashlti3(wide number, int count) {
    if (count == 0) return number;
    if (count >= 64) return joined(low(number) << (count - 64), 0);
    return joined(high(number) << count | low(number) >> (64 - count), low(number) << count);
}

wide __lshrti3(wide number, int count) {
    if (count == 0) return number;
    if (count >= 64) return joined(0, high(number) >> (count - 64));
    return joined(high(number) >> count, low(number) >> count | high(number) << (64 - count));
}

wide __ashrti3(wide number, int count) {
    int64_t top = (int64_t)high(number);
    if (count == 0) return number;
    if (count >= 64) return joined((uint64_t)(top >> 63), (uint64_t)(top >> (count - 64)));
    return joined((uint64_t)(top >> count), low(number) >> count | high(number) << (64 - count));
}
