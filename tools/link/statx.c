/* `statx`, which glibc has since 2.28. On Linux before 4.11, and where a sandbox forbids the call, it is made of a call that every
   Linux has. It reports a file as having a second name if replacing it would lose more than its content. */
#include "../../platforms/hosts/statx.h"
#include "calls.h"
#include <string.h>

enum { NO_FOLLOW = 0x100, EMPTY_PATH = 0x1000 };

/* What the older call stores. */
#if defined(__x86_64__)
struct stat {
    uint64_t device, number, links;
    uint32_t mode, owner, group, unused;
    uint64_t of_device;
    int64_t length, more[11];
};
_Static_assert(sizeof(struct stat) == 144, "the system's layout");
#else
struct stat {
    uint64_t device, number;
    uint32_t mode, links, owner, group;
    uint64_t of_device, unused;
    int64_t length, more[9];
};
_Static_assert(sizeof(struct stat) == 128, "the system's layout");
#endif

/* Stores what the program uses: the kind and mode, the number of links, the owner and group, the length, and which file of which
   device this is. */
static long older_statx(int folder, const char *path, int flags, struct statx *found) {
    struct stat file;
    const long answer = syscall(NEWFSTATAT, folder, path, &file, flags & (NO_FOLLOW | EMPTY_PATH));
    if (answer == 0) {
        memset(found, 0, sizeof *found);
        found->links = (uint32_t)file.links;
        found->owner = file.owner;
        found->group = file.group;
        found->mode = (uint16_t)file.mode;
        found->number = file.number;
        found->length = (uint64_t)file.length;
        found->of_device_major = (uint32_t)(file.device >> 8) & 0xfff;
        found->of_device_minor = (uint32_t)(file.device & 0xff) | ((uint32_t)(file.device >> 12) & 0xfff00);
    }
    return answer;
}

/* Whether a file has, or may have, this attribute. The calls for a path, a link itself and a descriptor have numbers in a row. */
static bool has(const char *attribute, int file, const char *path, int flags) {
    const bool is_open = (flags & EMPTY_PATH) != 0;
    const long number = GETXATTR + (is_open ? 2 : (flags & NO_FOLLOW) != 0 ? 1 : 0);
    return !is_none(syscall(number, is_open ? (const void *)(intptr_t)file : path, attribute, NULL, (size_t)0));
}

static bool has_list(int file, const char *path, int flags) {
    return has(ACCESS_LIST, file, path, flags) || has("system.nfs4_acl", file, path, flags);
}

int statx(int file, const char *path, int flags, uint32_t mask, struct statx *found) {
    enum { KIND = 0170000, REGULAR = 0100000, MOUNT_ROOT = 0x2000 };
    if (syscall(STATX, file, path, flags, mask, found) != 0 && older_statx(file, path, flags, found) != 0) {
        return -1;
    }
    if ((found->mode & KIND) == REGULAR && found->links == 1) {
        found->links += (found->attributes & MOUNT_ROOT) != 0 || has_list(file, path, flags);
    }
    return 0;
}
