/* The mark by which the loader, from glibc 2.33 on, refuses the library on a processor below the level x86-64-v2. The
   toolchain's linker has no option for it. The words are those of a note of GNU: the property "instructions that are needed". */
struct note {
    unsigned length_of_name, length, kind;
    char name[4];
    unsigned property, size, levels, padding;
};

__attribute__((section(".note.level"), aligned(8), used)) static const struct note level = {
    4, 16, 5, "GNU", 0xc0008002, 4, 2, 0,
};
