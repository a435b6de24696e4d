/* Refuses requests for memory of a program, counted from 1: the one with the number REFUSE, those of 7 to 8 where that is
   `7-8`, and all from the seventh on where it is `7-`. Where REFUSE has several of these with a blank between each two, the
   program runs once for each, from the start of its input, and has 20 seconds. Behind the output of each run, and behind
   what it tells the standard error, stand a sign of the code 30, the run's status, the number of its requests, and a line
   feed. It is loaded before the C library, which serves the other requests. */
typedef __SIZE_TYPE__ size;

extern char *getenv(const char *name);
extern __INTPTR_TYPE__ write(int descriptor, const void *bytes, size length);
extern long lseek(int descriptor, long offset, int from);
extern int fork(void);
extern int wait(int *status);
extern unsigned alarm(unsigned seconds);
extern void *mmap(void *at, size length, int protection, int flags, int descriptor, long offset);
extern void _exit(int status) __attribute__((noreturn));
extern void *__libc_malloc(size length);
extern void *__libc_calloc(size count, size length);
extern void *__libc_realloc(void *old, size length);
extern void *__libc_memalign(size alignment, size length);

static unsigned long *requests;
static unsigned long first;
static unsigned long last;

static const char *number(const char *digits, unsigned long *read) {
    *read = 0;
    while (*digits >= '0' && *digits <= '9') {
        *read = 10 * *read + (unsigned long)(*digits++ - '0');
    }
    return digits;
}

/* What comes behind a range, which is read. */
static const char *range(const char *words) {
    words = number(words, &first);
    last = first;
    if (*words == '-') {
        words = number(words + 1, &last);
        last = last ? last : -1UL;
    }
    while (*words == ' ') {
        ++words;
    }
    return words;
}

static char *put(char *end, unsigned long number) {
    do {
        *--end = (char)('0' + number % 10);
        number /= 10;
    } while (number);
    return end;
}

/* A run that a signal ended has a status above 127, as in a shell. */
static void tell(int status) {
    char line[64];
    char *at = line + sizeof line;
    *--at = '\n';
    at = put(at, *requests);
    *--at = ' ';
    at = put(at, (unsigned long)(status & 127 ? 128 + (status & 127) : status >> 8 & 255));
    *--at = 30;
    for (int descriptor = 1; descriptor <= 2; ++descriptor) {
        if (write(descriptor, at, (size)(line + sizeof line - at)) < 0) {
            _exit(1);
        }
    }
}

__attribute__((constructor)) static void begin(void) {
    const char *words = getenv("REFUSE");
    unsigned long *shared = mmap(0, sizeof *shared, 3, 0x21, -1, 0);
    while (words && *words) {
        int status = 0;
        words = range(words);
        *shared = 0;
        lseek(0, 0, 0);
        if (fork() == 0) {
            requests = shared;
            alarm(20);
            return;
        }
        wait(&status);
        requests = shared;
        tell(status);
    }
    _exit(0);
}

static int is_refused(void) {
    if (!requests) {
        return 0;
    }
    *requests += 1;
    return first <= *requests && *requests <= last;
}

void *malloc(size length) {
    return is_refused() ? 0 : __libc_malloc(length);
}

void *calloc(size count, size length) {
    return is_refused() ? 0 : __libc_calloc(count, length);
}

void *realloc(void *old, size length) {
    return is_refused() ? 0 : __libc_realloc(old, length);
}

void *memalign(size alignment, size length) {
    return is_refused() ? 0 : __libc_memalign(alignment, length);
}

void *aligned_alloc(size alignment, size length) {
    return memalign(alignment, length);
}

int posix_memalign(void **out, size alignment, size length) {
    void *made = memalign(alignment, length);
    if (!made) {
        return 12;
    }
    *out = made;
    return 0;
}
