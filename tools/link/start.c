/* Where the program begins. The start files of glibc 2.34 and later ask for a `__libc_start_main` that older systems lack. This
   one asks for the first, which each glibc for x86-64 has, and which leaves to the program what runs before `main`. */
#include "own_stack.h"

typedef void step(int count, char **words, char **environment);

extern step *const __init_array_start[] __attribute__((visibility("hidden")));
extern step *const __init_array_end[] __attribute__((visibility("hidden")));

__asm__(".symver __libc_start_main, __libc_start_main@GLIBC_2.2.5");
int __libc_start_main(int (*begins)(int, char **, char **), int count, char **words, step *before, void (*after)(void),
                      void (*end_of_loader)(void), void *stack);

static void before_main(int count, char **words, char **environment) {
    for (step *const *each = __init_array_start; each != __init_array_end; each++)
        (*each)(count, words, environment);
}

/* The stack holds how many words there are, and then the words. */
__attribute__((used)) static void begin(long *stack, void (*end_of_loader)(void)) {
    __libc_start_main(main_on_own_stack, (int)*stack, (char **)(stack + 1), before_main, 0, end_of_loader, stack);
}

/* The system passes the stack, and the loader passes in rdx the function to call at the end. */
__attribute__((naked, noreturn)) void _start(void) {
    __asm__("xor %ebp, %ebp\n"
            "mov %rsp, %rdi\n"
            "mov %rdx, %rsi\n"
            "and $-16, %rsp\n"
            "call begin\n"
            "hlt");
}
