/* The host of the program, which provides the functions that platforms/hosts describes: a part of bcs.c, after the translated
   code and platforms/hosts/descriptor.h. It is for any system with POSIX.

   The program runs on a thread of its own, whose stack is large enough for all limits on depth. If the code traps, it ends
   with `fault: memory` and the status 4. */
#include <errno.h>
#include <fcntl.h>
#include <pthread.h>
#include <signal.h>
#include <stdio.h>
#include <sys/stat.h>
#include <sys/types.h>
#include <unistd.h>
#ifdef __linux__
#include <sys/syscall.h>
#include <sys/xattr.h>
#endif

#define STACK ((size_t)64 << 20)
/* What the system keeps at the ends of a thread's stack. */
#define RESERVE ((size_t)64 << 10)
#define STATUS_FAULT 4
/* The most that one call reads or writes, since some systems refuse more than 2 GiB. */
#define MOST_BYTES (1 << 30)

static Z_bcs_instance_t program;
static char **arguments;
static u64 count_of_arguments;
static u32 last_error;

/* ---- Errors, which have Linux's numbers on every system. */

#define LINUX_EIO 5

static u32 number_of(int error) {
    static const struct {
        int own;
        u32 of_linux;
    } errors[] = {
        {EPERM, 1},   {ENOENT, 2},  {EINTR, 4},   {EIO, LINUX_EIO}, {ENXIO, 6}, {EBADF, 9},   {EAGAIN, 11}, {ENOMEM, 12},       {EACCES, 13},
        {EBUSY, 16}, {EEXIST, 17},         {ENOTDIR, 20}, {EISDIR, 21}, {EINVAL, 22}, {EMFILE, 24},     {EFBIG, 27},  {ENOSPC, 28}, {ESPIPE, 29},       {EROFS, 30},
        {EPIPE, 32},  {ENAMETOOLONG, 36},          {ELOOP, 40},
    };
    for (size_t row = 0; row < sizeof errors / sizeof *errors; row++) {
        if (errors[row].own == error) {
            return errors[row].of_linux;
        }
    }
    return LINUX_EIO;
}

/* The answer of a call of the system. If it is -1, the error is kept for the program. */
static u64 told(long long answer) {
    if (answer == -1) {
        last_error = number_of(errno);
    }
    return (u64)answer;
}

static u64 refused(int error) {
    errno = error;
    return told(-1);
}

/* ---- The program's memory. What isn't in it traps. */

static void *bytes_at(u64 place, u64 length) {
    if (place > program.w2c_memory.size || length > program.w2c_memory.size - place) {
        wasm_rt_trap(WASM_RT_TRAP_OOB);
    }
    return program.w2c_memory.data + place;
}

/* A text that ends at its first 0. */
static const char *text_at(u64 place) {
    const char *const text = bytes_at(place, 0);
    if (memchr(text, 0, program.w2c_memory.size - place) == NULL) {
        wasm_rt_trap(WASM_RT_TRAP_OOB);
    }
    return text;
}

/* Copies a text without its 0, as far as there is room. Returns its length, -1 if there is no text, or -2 if it is longer. */
static u64 handed(const char *text, u64 place, u64 room) {
    if (text == NULL) {
        return (u64)-1;
    }
    const u64 length = strlen(text), copied = length < room ? length : room;
    memcpy(bytes_at(place, room), text, (size_t)copied);
    return copied < length ? (u64)-2 : length;
}

/* ---- The functions. */

struct Z_env_instance_t {
    char nothing;
};
#define HOST struct Z_env_instance_t *host

static int flags_of(u32 flags) {
    static const struct {
        u32 of_linux;
        int own;
    } known[] = {{0x1, O_WRONLY}, {0x40, O_CREAT}, {0x80, O_EXCL}, {0x200, O_TRUNC}};
    int used = O_RDONLY | O_NOCTTY | O_CLOEXEC;
    for (size_t row = 0; row < sizeof known / sizeof *known; row++) {
        used |= (flags & known[row].of_linux) != 0 ? known[row].own : 0;
    }
    return used;
}

/* The flags are Linux's. The mode of a new file is in the program's memory. */
static u32 Z_envZ_open(HOST, u64 path, u32 flags, u64 more) {
    u32 mode = 0;
    (void)host;
    memcpy(&mode, bytes_at(more, sizeof mode), sizeof mode);
    const int number = named_descriptor(text_at(path), (int)flags);
    return (u32)told(number >= 0 ? dup(number) : open(text_at(path), flags_of(flags), (mode_t)mode));
}

static u32 Z_envZ_close(HOST, u32 file) {
    (void)host;
    return (u32)told(close((int)file));
}

static u64 Z_envZ_read(HOST, u32 file, u64 place, u64 room) {
    const size_t most = room < MOST_BYTES ? (size_t)room : MOST_BYTES;
    void *const bytes = bytes_at(place, room);
    ssize_t length;
    (void)host;
    do {
        length = read((int)file, bytes, most);
    } while (length == -1 && errno == EINTR);
    return told(length);
}

static u64 Z_envZ_write(HOST, u32 file, u64 place, u64 length) {
    const size_t most = length < MOST_BYTES ? (size_t)length : MOST_BYTES;
    const void *const bytes = bytes_at(place, length);
    ssize_t written;
    (void)host;
    do {
        written = write((int)file, bytes, most);
    } while (written == -1 && errno == EINTR);
    return told(written);
}

static u64 Z_envZ_lseek(HOST, u32 file, u64 offset, u32 whence) {
    static const int of_linux[] = {SEEK_SET, SEEK_CUR, SEEK_END};
    (void)host;
    return whence < 3 ? told(lseek((int)file, (off_t)offset, of_linux[whence])) : refused(EINVAL);
}

/* Only Linux has links that name what a descriptor is, so any terminal goes by one name. */
static u64 Z_envZ_readlink(HOST, u64 path, u64 place, u64 room) {
    static const char name[] = "/dev/tty";
    const u64 length = room < sizeof name - 1 ? room : sizeof name - 1;
    (void)host;
    if (strcmp(text_at(path), "/proc/self/fd/1") != 0) {
        return told(readlink(text_at(path), bytes_at(place, room), (size_t)room));
    }
    if (!isatty(1)) {
        return refused(EINVAL);
    }
    memcpy(bytes_at(place, length), name, (size_t)length);
    return length;
}

static void put_number(u64 place, u64 number, u64 length) {
    memcpy(bytes_at(place, length), &number, (size_t)length);
}

/* The kind and mode of a file, with Linux's numbers. Only on Linux does a link's mode say whether it is an ordinary one. */
static u32 mode_of(const struct stat *file) {
#ifdef __linux__
    return (u32)file->st_mode;
#else
    const u32 kind = S_ISREG(file->st_mode) ? 0100000 : S_ISDIR(file->st_mode) ? 0040000 : S_ISLNK(file->st_mode) ? 0120777 : 0020000;
    return kind | (u32)(file->st_mode & 07777);
#endif
}

enum { OF_LINK = 0x100, OF_DESCRIPTOR = 0x1000 };

#ifdef __linux__
static int is_none(int answer) {
    return answer == -1 && (errno == ENODATA || errno == EOPNOTSUPP);
}

/* Whether a file has, or may have, an access control list of this name. */
static int has_list(const char *list, u32 file, const char *name, u32 flags) {
    return !is_none((int)((flags & OF_DESCRIPTOR) != 0 ? fgetxattr((int)file, list, NULL, 0)
                          : (flags & OF_LINK) != 0     ? lgetxattr(name, list, NULL, 0)
                                                       : getxattr(name, list, NULL, 0)));
}

/* Android ends a program that makes the call. */
static int is_mounted(u32 file, const char *name, u32 flags) {
#if defined(SYS_statx) && !defined(__ANDROID__)
    enum { ATTRIBUTES = 1, MOUNT_ROOT = 0x2000 };
    uint64_t found[32];
    return syscall(SYS_statx, (int)file, name, (int)flags, 0, found) == 0 && (found[ATTRIBUTES] & MOUNT_ROOT) != 0;
#else
    (void)file, (void)name, (void)flags;
    return 0;
#endif
}
#endif

/* Whether replacing a file would lose more than its content: its access control list, or that it is mounted by itself. Only Linux
   is asked. */
static int has_more(u32 file, const char *name, u32 flags) {
#ifdef __linux__
    return is_mounted(file, name, flags) || has_list("system.posix_acl_access", file, name, flags) ||
           has_list("system.nfs4_acl", file, name, flags);
#else
    (void)file, (void)name, (void)flags;
    return 0;
#endif
}

/* What a file is. The folder of the process belongs to its user, and tells who that is; not each system has one. */
static int describe(u32 file, const char *name, u32 flags, struct stat *its) {
    const int answer = (flags & OF_DESCRIPTOR) != 0 ? fstat((int)file, its) : (flags & OF_LINK) != 0 ? lstat(name, its) : stat(name, its);
    if (answer == 0 || (flags & OF_DESCRIPTOR) != 0 || strcmp(name, "/proc/self") != 0) {
        return answer;
    }
    memset(its, 0, sizeof *its);
    its->st_mode = S_IFDIR;
    its->st_uid = geteuid();
    return 0;
}

/* Stores what a file is as platforms/hosts/statx.h has it. */
static u32 Z_envZ_statx(HOST, u32 file, u64 path, u32 flags, u32 mask, u64 found) {
    struct stat its;
    (void)host, (void)mask;
    const char *const name = text_at(path);
    const int answer = describe(file, name, flags, &its);
    if (answer == 0) {
        const u64 links = (u64)its.st_nlink;
        put_number(found + 16, S_ISREG(its.st_mode) && links == 1 && has_more(file, name, flags) ? 2 : links, 4);
        put_number(found + 20, (u64)its.st_uid, 4);
        put_number(found + 24, (u64)its.st_gid, 4);
        put_number(found + 28, mode_of(&its), 2);
        put_number(found + 32, (u64)its.st_ino, 8);
        put_number(found + 40, (u64)its.st_size, 8);
        put_number(found + 136, (u64)its.st_dev, 8);
    }
    return (u32)told(answer);
}

static u32 Z_envZ_fsync(HOST, u32 file) {
    (void)host;
    return (u32)told(fsync((int)file));
}

/* On Linux a folder's default access control list is also that of a file created in it. A mode would then allow what that list
   grants to other users. */
static u32 Z_envZ_fchmod(HOST, u32 file, u32 mode) {
    (void)host;
#ifdef __linux__
    const int removed = fremovexattr((int)file, "system.posix_acl_access");
    if (removed != 0 && !is_none(removed)) {
        return (u32)told(-1);
    }
#endif
    return (u32)told(fchmod((int)file, (mode_t)mode));
}

static u32 Z_envZ_fchown(HOST, u32 file, u32 owner, u32 group) {
    (void)host;
    return (u32)told(fchown((int)file, (uid_t)owner, (gid_t)group));
}

static u32 Z_envZ_rename(HOST, u64 from, u64 to) {
    (void)host;
    return (u32)told(rename(text_at(from), text_at(to)));
}

static u32 Z_envZ_unlink(HOST, u64 path) {
    (void)host;
    return (u32)told(unlink(text_at(path)));
}

/* Not every system has this call. */
static u32 Z_envZ_getentropy(HOST, u64 place, u64 length) {
    void *const bytes = bytes_at(place, length);
    const int file = open("/dev/urandom", O_RDONLY | O_CLOEXEC);
    const ssize_t count = file >= 0 ? read(file, bytes, (size_t)length) : -1;
    (void)host;
    if (file >= 0) {
        close(file);
    }
    return count == (ssize_t)length ? 0 : (u32)refused(EIO);
}

/* The program is linked with these and doesn't call them. */
static u32 Z_envZ_ftruncate(HOST, u32 file, u64 length) {
    (void)host, (void)file, (void)length;
    return (u32)refused(EINVAL);
}

static u32 Z_envZ_fdatasync(HOST, u32 file) {
    (void)host, (void)file;
    return (u32)refused(EINVAL);
}

static u32 Z_envZ_flock(HOST, u32 file, u32 how) {
    (void)host, (void)file, (void)how;
    return (u32)refused(EINVAL);
}

/* That SIGPIPE, 13 on Linux, is to be ignored. */
static u64 Z_envZ___sysv_signal(HOST, u32 signal_of_linux, u64 handler) {
    (void)host;
    if (signal_of_linux != 13 || handler != 1 || signal(SIGPIPE, SIG_IGN) == SIG_ERR) {
        return refused(EINVAL);
    }
    return 0;
}

static u64 Z_envZ_rattle_arg(HOST, u64 number, u64 place, u64 room) {
    (void)host;
    return handed(number < count_of_arguments ? arguments[number] : NULL, place, room);
}

static u64 Z_envZ_rattle_env(HOST, u64 name, u64 place, u64 room) {
    (void)host;
    return handed(getenv(text_at(name)), place, room);
}

static u32 Z_envZ_rattle_errno(HOST) {
    (void)host;
    return last_error;
}

static void Z_envZ_rattle_set_errno(HOST, u32 error) {
    (void)host;
    last_error = error;
}

/* ---- The start. */

static int fault(const char *words) {
    if (write(2, words, strlen(words)) == -1) {
        return STATUS_FAULT; /* the standard error is closed */
    }
    return STATUS_FAULT;
}

static int ran_out(void) {
    return fault("fault: memory\n");
}

/* If descriptor 0, 1 or 2 is closed, the next file that is opened gets its number, and what the program prints would be written
   into that file. So a closed one is filled with something that, like a closed one, can't be used: a folder's name, or a file that
   is open only for the other direction. */
#ifdef O_PATH
#define UNUSABLE "/"
#define FLAGS(file) O_PATH
#else
#define UNUSABLE "/dev/null"
#define FLAGS(file) ((file) == 0 ? O_WRONLY : O_RDONLY)
#endif

static int are_streams_open(void) {
    for (int file = 0; file <= 2; file++) {
        if (fcntl(file, F_GETFD) == -1 && open(UNUSABLE, FLAGS(file)) != file) {
            return 0;
        }
    }
    return 1;
}

static void *run(void *status) {
    static struct Z_env_instance_t host;
    sigjmp_buf here;
    program.stack_end = end_of_stack(STACK - RESERVE);
    if (sigsetjmp(here, 0) == 0) {
        on_trap = &here;
        Z_bcs_instantiate(&program, &host);
        *(int *)status = (int)Z_bcsZ_main(&program, 0, 0);
    } else {
        *(int *)status = ran_out();
    }
    return NULL;
}

int main(int count, char **words) {
    pthread_attr_t attributes;
    pthread_t thread;
    int status = STATUS_FAULT;
    arguments = words;
    count_of_arguments = (u64)count;
    if (!are_streams_open()) {
        return fault("fault: open\nin the file " UNUSABLE "\n");
    }
    if (pthread_attr_init(&attributes) != 0 || pthread_attr_setstacksize(&attributes, STACK) != 0 ||
        pthread_create(&thread, &attributes, run, &status) != 0 || pthread_join(thread, NULL) != 0) {
        return ran_out();
    }
    return status;
}
