/* What glibc has from 2.33 on, for older ones: the processor's features, as its own instruction reports them. The program asks
   which of two leaves it has, and both are there on each processor of 64 bits. */
struct features {
    unsigned told[4], usable[4];
};

__attribute__((visibility("hidden"))) const struct features *__x86_get_cpuid_feature_leaf(unsigned number) {
    static struct features found[3];
    static const unsigned leaves[] = {1, 0, 0x80000001};
    if (number != 0 && number != 2)
        return &found[1];
    unsigned *told = found[number].told, *usable = found[number].usable;
    __asm__("cpuid" : "=a"(told[0]), "=b"(told[1]), "=c"(told[2]), "=d"(told[3]) : "a"(leaves[number]), "c"(0));
    for (int at = 0; at < 4; at++)
        usable[at] = told[at];
    return &found[number];
}
