/* A part of libbcs.a alone. library.c uses these functions where they are there, which isn't enough to get them out of a static
   C library: that takes a program that asks for them. */
#ifdef __linux__
void pthread_self(void), pthread_getattr_np(void), pthread_attr_getstack(void), pthread_attr_getguardsize(void),
    pthread_attr_destroy(void), getrlimit(void), getpagesize(void), mincore(void), getpid(void), syscall(void);

__attribute__((used)) static void (*const asked_for[])(void) = {
    pthread_self, pthread_getattr_np, pthread_attr_getstack, pthread_attr_getguardsize, pthread_attr_destroy,
    getrlimit,    getpagesize,        mincore,               getpid,                    syscall,
};
#endif
