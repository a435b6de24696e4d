/* Descriptors by name. With `--output`, the program opens /dev/fd/N, for writing only, if FILE is a name of descriptor N. The
   system would open a file anew there, and write over its start. */
#ifndef BCS_DESCRIPTOR_H
#define BCS_DESCRIPTOR_H

/* The number N, or -1 if the path is another, or isn't opened for writing only. The flags are Linux's. */
static int named_descriptor(const char *path, int flags) {
    enum { WAYS = 3, WRITES_ONLY = 1, MOST = 100000000 };
    int number = 0;
    for (const char *front = "/dev/fd/"; *front != 0; front++, path++) {
        if (*path != *front) {
            return -1;
        }
    }
    do {
        if (*path < '0' || *path > '9' || number >= MOST) {
            return -1;
        }
        number = 10 * number + (*path - '0');
    } while (*++path != 0);
    return (flags & WAYS) == WRITES_ONLY ? number : -1;
}

#endif
