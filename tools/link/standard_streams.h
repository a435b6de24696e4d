/* The standard streams. If descriptor 0, 1 or 2 is closed, the next file that is opened gets its number, and what the program
   prints would be written into that file. So a closed one is filled with a folder's name (and older Linux, which ignores O_PATH,
   opens the folder to read it). Like a closed one, it can be neither read nor written, not even as /dev/stdin or /dev/stdout,
   which would open /dev/null once more. */
#include "calls.h"

int open(const char *path, int flags, ...);

static bool are_streams_open(void) {
    enum { F_GETFD = 1, O_PATH = 0x200000 };
    for (int file = 0; file <= 2; file++) {
        if (syscall(FCNTL, file, F_GETFD) == -1 && open("/", O_PATH) != file) {
            return false;
        }
    }
    return true;
}
