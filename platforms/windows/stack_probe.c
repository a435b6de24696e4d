/* Windows makes a stack longer one page at a time, and only if its next page is touched. So clang has each function whose frame
   has a page or more call this first, with the frame's size in rax. It touches each page of the frame and changes no register. */
__attribute__((naked)) void ___chkstk_ms(void) {
    __asm__("push %rax\n"
            "push %rcx\n"
            "lea 24(%rsp), %rcx\n" /* where the frame ends that calls this */
            "1: cmp $4096, %rax\n"
            "jb 2f\n"
            "sub $4096, %rcx\n"
            "sub $4096, %rax\n"
            "testb $0, (%rcx)\n"
            "jmp 1b\n"
            "2: sub %rax, %rcx\n"
            "testb $0, (%rcx)\n"
            "pop %rcx\n"
            "pop %rax\n"
            "ret");
}
