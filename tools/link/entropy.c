/* `getentropy`, which glibc has since 2.25, by a call that Linux has since 3.17, or else by a file that it has always had. It
   doesn't wait while the system starts. */
#include <stddef.h>

long syscall(long number, ...);
int open(const char *path, int flags, ...);
long read(int file, void *bytes, size_t length);
int close(int file);

#if defined(__x86_64__)
enum { GETRANDOM = 318 };
#else
enum { GETRANDOM = 278 };
#endif

enum { WITHOUT_WAITING = 1, FOR_READING = 0 };

int getentropy(void *bytes, size_t length) {
    if (syscall(GETRANDOM, bytes, length, WITHOUT_WAITING) == (long)length) {
        return 0;
    }
    const int file = open("/dev/urandom", FOR_READING);
    if (file < 0) {
        return -1;
    }
    const long count = read(file, bytes, length);
    close(file);
    return count == (long)length ? 0 : -1;
}
