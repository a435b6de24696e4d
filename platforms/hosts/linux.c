/* The host of the proved program on Linux: the functions of README.md that a C library doesn't have under these names. The others
   are those of tools/link, or (open, close, ..) the C library's own, whose errors have the right numbers. */
#include <stddef.h>

/* What headers declare: the files of dist/ are compiled without those of a system. */
int *__errno_location(void);
char *getenv(const char *name);
size_t strlen(const char *text);
void *memcpy(void *to, const void *from, size_t length);

/* `main` of the proved program. */
int bcs_main(void);

enum { MISSING = -1, TOO_LONG = -2 };

static char **arguments;
static size_t argument_count;

/* Copies a text without its 0, or as much of it as there is room for. */
static long put(const char *text, char *buffer, size_t room) {
    if (text == NULL) {
        return MISSING;
    }
    size_t length = strlen(text);
    memcpy(buffer, text, length <= room ? length : room);
    return length <= room ? (long)length : TOO_LONG;
}

long rattle_arg(size_t number, char *buffer, size_t room) {
    return put(number < argument_count ? arguments[number] : NULL, buffer, room);
}

long rattle_env(const char *name, char *buffer, size_t room) {
    return put(getenv(name), buffer, room);
}

int rattle_errno(void) {
    return *__errno_location();
}

void rattle_set_errno(int error) {
    *__errno_location() = error;
}

int main(int count, char **words) {
    arguments = words;
    argument_count = (size_t)count;
    return bcs_main();
}
