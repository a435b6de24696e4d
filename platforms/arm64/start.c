/* Where the program begins. The start files of a newer glibc need that glibc. This code needs only `__libc_start_main`, which every
   glibc for arm64 has. Nothing has to run before or after `main`. */
#include "../../tools/link/own_stack.h"

typedef void step(void);

int __libc_start_main(int (*begins)(int, char **, char **), int count, char **words, step *before, step *after, step *end_of_loader,
                      void *stack);

/* The stack has the number of arguments, and then the arguments. */
__attribute__((used)) static void begin(long *stack, step *end_of_loader) {
    __libc_start_main(main_on_own_stack, (int)*stack, (char **)(stack + 1), 0, 0, end_of_loader, stack);
    __builtin_trap();
}

/* The loader passes in x0 what has to be called at the end. */
__attribute__((naked, noreturn)) void _start(void) {
    __asm__("mov x29, #0\n"
            "mov x30, #0\n"
            "mov x1, x0\n"
            "mov x0, sp\n"
            "b begin");
}
