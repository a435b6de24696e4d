/* The functions that platforms/hosts/README.md lists, on Windows, and where bcs.exe begins. They are made of the functions of
   KERNEL32.dll and msvcrt.dll that imports/ lists. */
#include "windows.h"
#include "../hosts/descriptor.h"
#include "../hosts/statx.h"
#include <stdbool.h>

/* ---- Errors. */

/* The numbers that the program knows. They are Linux's. */
enum { EPERM = 1, ENOENT = 2, EINTR = 4, EIO = 5, EBADF = 9, EAGAIN = 11, ENOMEM = 12, EACCES = 13, EEXIST = 17, ENOTDIR = 20, EINVAL = 22, EMFILE = 24,
       ENOSPC = 28, ESPIPE = 29, EROFS = 30, EPIPE = 32, ENAMETOOLONG = 36, ELOOP = 40 };

static const struct {
    uint32_t of_windows;
    int32_t number;
} errors[] = {
    {2, ENOENT},         /* ERROR_FILE_NOT_FOUND */
    {3, ENOENT},         /* ERROR_PATH_NOT_FOUND */
    {15, ENOENT},        /* ERROR_INVALID_DRIVE */
    {53, ENOENT},        /* ERROR_BAD_NETPATH */
    {67, ENOENT},        /* ERROR_BAD_NET_NAME */
    {123, ENOENT},       /* ERROR_INVALID_NAME: no file can have it */
    {161, ENOENT},       /* ERROR_BAD_PATHNAME */
    {4, EMFILE},         /* ERROR_TOO_MANY_OPEN_FILES */
    {5, EACCES},         /* ERROR_ACCESS_DENIED */
    {32, EACCES},        /* ERROR_SHARING_VIOLATION */
    {33, EACCES},        /* ERROR_LOCK_VIOLATION */
    {19, EROFS},         /* ERROR_WRITE_PROTECT */
    {80, EEXIST},        /* ERROR_FILE_EXISTS */
    {183, EEXIST},       /* ERROR_ALREADY_EXISTS */
    {6, EBADF},          /* ERROR_INVALID_HANDLE */
    {8, ENOMEM},         /* ERROR_NOT_ENOUGH_MEMORY */
    {14, ENOMEM},        /* ERROR_OUTOFMEMORY */
    {109, EPIPE},        /* ERROR_BROKEN_PIPE */
    {232, EPIPE},        /* ERROR_NO_DATA */
    {233, EPIPE},        /* ERROR_PIPE_NOT_CONNECTED */
    {39, ENOSPC},        /* ERROR_HANDLE_DISK_FULL */
    {112, ENOSPC},       /* ERROR_DISK_FULL */
    {206, ENAMETOOLONG}, /* ERROR_FILENAME_EXCED_RANGE */
    {267, ENOTDIR},      /* ERROR_DIRECTORY */
    {995, EINTR},        /* ERROR_OPERATION_ABORTED: Ctrl+C at a console */
    {1921, ELOOP},       /* ERROR_CANT_RESOLVE_FILENAME */
};

static int32_t last_error;

int32_t rattle_errno(void) {
    return last_error;
}

void rattle_set_errno(int32_t error) {
    last_error = error;
}

static int32_t fails(int32_t error) {
    last_error = error;
    return -1;
}

/* Fails for the reason that the system gives for its last call. */
static int32_t system_fails(void) {
    const uint32_t error = GetLastError();
    for (size_t row = 0; row < sizeof errors / sizeof *errors; row++) {
        if (errors[row].of_windows == error) {
            return fails(errors[row].number);
        }
    }
    return fails(EIO);
}

/* ---- Texts. */

/* Copies UTF-16 as UTF-8 and returns its length. What isn't UTF-16 becomes a byte that isn't UTF-8. The room is three bytes for
   each unit, and at least one. */
static size_t put_utf8(char *room, const unit *units, size_t length) {
    if (length == 0) {
        return 0;
    }
    const int bytes = WideCharToMultiByte(CODE_PAGE_UTF8, INVALID_IS_ERROR, units, (int)length, room, (int)(3 * length), NULL, NULL);
    if (bytes > 0) {
        return (size_t)bytes;
    }
    *room = '\xff';
    return 1;
}

static size_t length_of(const unit *units) {
    size_t length = 0;
    while (units[length] != 0) {
        length++;
    }
    return length;
}

/* A text of the command line or the environment as UTF-8. `bytes` is NULL if there is no memory for it. */
struct text {
    char *bytes;
    size_t length;
};

static struct text text_of(const unit *units, size_t length) {
    struct text text = {malloc(3 * length + 1), 0};
    if (text.bytes != NULL) {
        text.length = put_utf8(text.bytes, units, length);
    }
    return text;
}

/* A new block with UTF-8 as UTF-16, or NULL. */
static unit *utf16_of(const char *bytes) {
    const int length = MultiByteToWideChar(CODE_PAGE_UTF8, INVALID_IS_ERROR_TOO, bytes, -1, NULL, 0);
    unit *const units = length > 0 ? malloc((size_t)length * sizeof *units) : NULL;
    if (units != NULL) {
        MultiByteToWideChar(CODE_PAGE_UTF8, INVALID_IS_ERROR_TOO, bytes, -1, units, length);
    }
    return units;
}

/* What rattle_arg and rattle_env answer. */
static int64_t give(struct text text, char *buffer, uint64_t room) {
    const bool is_short = text.length > room;
    memcpy(buffer, text.bytes, is_short ? room : text.length);
    return is_short ? -2 : (int64_t)text.length;
}

/* ---- Arguments and the environment. */

static struct text *arguments;
static int count_of_arguments;

int64_t rattle_arg(uint64_t i, char *buffer, uint64_t room) {
    return i < (uint64_t)count_of_arguments ? give(arguments[i], buffer, room) : -1;
}

/* The program's name, of its path: neither folders nor .exe. */
static struct text name_of(const unit *path) {
    const unit *name = path;
    for (; *path != 0; path++) {
        name = *path == '\\' || *path == '/' ? path + 1 : name;
    }
    const size_t length = (size_t)(path - name);
    const bool has_ending = length > 4 && path[-4] == '.' && (path[-3] | 32) == 'e' && (path[-2] | 32) == 'x' && (path[-1] | 32) == 'e';
    return text_of(name, has_ending ? length - 4 : length);
}

static bool take_arguments(void) {
    unit **words, **environment;
    int options = 0;
    if (__wgetmainargs(&count_of_arguments, &words, &environment, KEEP_WILDCARDS, &options) < 0) {
        return false;
    }
    arguments = malloc(((size_t)count_of_arguments + 1) * sizeof *arguments);
    bool is_taken = arguments != NULL;
    for (int i = 0; is_taken && i < count_of_arguments; i++) {
        arguments[i] = i == 0 ? name_of(words[0]) : text_of(words[i], length_of(words[i]));
        is_taken = arguments[i].bytes != NULL;
    }
    return is_taken;
}

int64_t rattle_env(const char *name, char *buffer, uint64_t room) {
    unit *const wide_name = utf16_of(name);
    const uint32_t size = wide_name != NULL ? GetEnvironmentVariableW(wide_name, NULL, 0) : 0;
    unit *const value = size > 0 ? malloc(size * sizeof *value) : NULL;
    int64_t answer = -1;
    if (value != NULL && GetEnvironmentVariableW(wide_name, value, size) < size) {
        const struct text text = text_of(value, length_of(value));
        answer = text.bytes != NULL ? give(text, buffer, room) : -1;
        free(text.bytes);
    }
    free(value);
    free(wide_name);
    return answer;
}

/* ---- Consoles. Their text is UTF-16: as bytes it would be in some code page, in which characters are lost. */

static bool is_console(handle file) {
    uint32_t mode;
    return GetConsoleMode(file, &mode) != 0;
}

/* The longest line that is typed in one piece. */
#define UNITS 1000

/* What was typed and not yet read. */
static struct {
    char bytes[3 * UNITS];
    size_t at, length;
    bool is_within_line;
} typed;

/* Waits for a line, or a piece of one. No bytes are the end, which is Ctrl+Z at the beginning of a line. */
static bool take_typed(handle console) {
    unit units[UNITS];
    uint32_t length = 0, one = 0;
    SetLastError(0);
    if (ReadConsoleW(console, units, UNITS - 1, &length, NULL) == 0 || (length == 0 && GetLastError() != 0)) {
        return false;
    }
    const bool is_half = length > 0 && units[length - 1] >> 10 == HIGH_SURROGATE;
    if (is_half && ReadConsoleW(console, units + length, 1, &one, NULL) != 0) {
        length += one;
    }
    const bool is_end = length > 0 && units[0] == CONTROL_Z && !typed.is_within_line;
    typed.at = 0;
    typed.length = is_end ? 0 : put_utf8(typed.bytes, units, length);
    typed.is_within_line = !is_end && length > 0 && units[length - 1] != '\n';
    return true;
}

static int64_t read_console(handle console, char *buffer, uint64_t room) {
    if (typed.at == typed.length && !take_typed(console)) {
        return system_fails();
    }
    const size_t left = typed.length - typed.at, length = left < room ? left : room;
    memcpy(buffer, typed.bytes + typed.at, length);
    typed.at += length;
    return (int64_t)length;
}

/* Writes whole characters, if there is one. */
static int64_t write_console(handle console, const char *bytes, uint64_t length) {
    unit units[UNITS];
    size_t end = length < UNITS ? length : UNITS;
    while (end < length && end > UNITS - 3 && (bytes[end] & 0xc0) == 0x80) {
        end--;
    }
    uint32_t written;
    const int count = MultiByteToWideChar(CODE_PAGE_UTF8, 0, bytes, (int)end, units, UNITS);
    return WriteConsoleW(console, units, (uint32_t)count, &written, NULL) != 0 ? (int64_t)end : system_fails();
}

/* The standard output, if it is a console, and its mode before the program. */
static struct {
    handle console;
    uint32_t mode;
    bool shows_colours;
} output;

static void begin_colours(void) {
    output.console = GetStdHandle(STANDARD_OUTPUT);
    output.shows_colours = GetConsoleMode(output.console, &output.mode) != 0 &&
                           SetConsoleMode(output.console, output.mode | COLOURS_BY_SEQUENCES) != 0;
}

static void end_colours(void) {
    if (output.shows_colours) {
        SetConsoleMode(output.console, output.mode);
    }
}

/* The program asks which file the standard output is, to know whether it is a terminal. */
int64_t readlink(const char *path, char *buffer, uint64_t room) {
    static const char asked[] = "/proc/self/fd/1", terminal[] = "/dev/tty";
    if (memcmp(path, asked, sizeof asked) != 0 || !output.shows_colours || room < sizeof terminal - 1) {
        return fails(EINVAL);
    }
    memcpy(buffer, terminal, sizeof terminal - 1);
    return sizeof terminal - 1;
}

/* ---- Files. */

/* The standard streams. NULL is one that is missing. */
static handle streams[3];

/* A process may begin with the number of a handle that isn't open. The next file that is opened may get it, and what the program
   prints would be written into that file. */
static void find_streams(void) {
    for (uint32_t file = 0; file < 3; file++) {
        const handle stream = GetStdHandle(STANDARD_INPUT - file);
        SetLastError(0);
        streams[file] = GetFileType(stream) != UNKNOWN || GetLastError() == 0 ? stream : NULL;
    }
}

/* A descriptor is the number of a handle: these fit into 32 bits and are multiples of 4, so 0, 1 and 2 are no handles. */
static handle handle_of(int32_t file) {
    return file >= 0 && file <= 2 ? streams[file] : (handle)(intptr_t)file;
}

/* A path that is longer than the system's calls accept has to be whole, and to begin with \\?\ or \\?\UNC\. */
static unit *long_path(const unit *path, uint32_t size) {
    static const unit local[] = u"\\\\?\\", shared[] = u"\\\\?\\UNC\\";
    enum { FRONT = sizeof shared / sizeof *shared - 1 };
    unit *const room = malloc((FRONT + size) * sizeof *room), *whole = room + FRONT;
    if (room == NULL || GetFullPathNameW(path, size, whole, NULL) >= size) {
        free(room);
        return NULL;
    }
    const bool is_shared = whole[0] == '\\' && whole[1] == '\\';
    const bool is_device = is_shared && (whole[2] == '.' || whole[2] == '?') && whole[3] == '\\';
    const unit *const front = is_device ? u"" : is_shared ? shared : local;
    const size_t length = length_of(front);
    whole += is_shared && !is_device ? 2 : 0;
    memmove(room + length, whole, (length_of(whole) + 1) * sizeof *room);
    memcpy(room, front, length * sizeof *room);
    return room;
}

/* A new block with the path as the system takes it, or NULL. */
static unit *path_of(const char *path) {
    unit *const units = utf16_of(path);
    const uint32_t size = units != NULL ? GetFullPathNameW(units, 0, NULL, NULL) : 0;
    if (size <= LONGEST_PATH) {
        return units;
    }
    unit *const whole = long_path(units, size);
    free(units);
    return whole;
}

/* How a file is opened, by the flags of Linux. */
static uint32_t disposition(int32_t flags) {
    enum { CREATES = 0x40, CREATES_ONLY = 0x80 };
    return (flags & CREATES) == 0 ? EXISTING : (flags & CREATES_ONLY) != 0 ? CREATED : EMPTIED;
}

/* Opens a file to read it, or else to write it from its start. A folder may be opened to read, as on Linux. A pipe's server
   learns who this is, and can't act for them. */
int32_t open(const char *path, int32_t flags, ...) {
    enum { WRITES_ONLY = 1 /* on Linux */ };
    const bool writes = (flags & WRITES_ONLY) != 0;
    const int32_t named = named_descriptor(path, flags);
    if (named >= 0) {
        return named <= 2 ? named : fails(EBADF);
    }
    unit *const name = path_of(path);
    if (name == NULL) {
        return fails(ENOMEM);
    }
    const handle file = CreateFileW(name, writes ? WRITING : READING, SHARED_WITH_ALL, NULL, disposition(flags),
                                    (writes ? 0 : EVEN_FOLDERS) | IDENTIFY_ONLY, NULL);
    const int32_t descriptor = (int32_t)(intptr_t)file;
    const int32_t error = file == NO_FILE ? system_fails() : 0;
    free(name);
    if (error == 0 && (handle)(intptr_t)descriptor != file) {
        CloseHandle(file);
        return fails(EMFILE);
    }
    return error == 0 ? descriptor : -1;
}

/* The standard streams stay open: `open` returns them under their own numbers. */
int32_t close(int32_t file) {
    const bool is_standard = file >= 0 && file <= 2;
    return is_standard || CloseHandle(handle_of(file)) != 0 ? 0 : system_fails();
}

static uint32_t at_most(uint64_t length) {
    return length < MOST_BYTES ? (uint32_t)length : MOST_BYTES;
}

/* Somebody may write no bytes into a pipe, which isn't its end. */
static int64_t read_once(handle from, char *buffer, uint64_t room) {
    uint32_t length = 0;
    if (is_console(from)) {
        return read_console(from, buffer, room);
    }
    do {
        if (ReadFile(from, buffer, at_most(room), &length, NULL) == 0) {
            const uint32_t error = GetLastError();
            return error == PIPE_IS_CLOSED ? 0 : error == MESSAGE_IS_LONGER ? (int64_t)length : system_fails();
        }
    } while (length == 0 && room > 0 && PeekNamedPipe(from, NULL, 0, NULL, NULL, NULL) != 0);
    return length;
}

static int64_t write_once(handle to, const char *bytes, uint64_t length) {
    uint32_t written = 0;
    if (is_console(to)) {
        return write_console(to, bytes, length);
    }
    if (WriteFile(to, bytes, at_most(length), &written, NULL) == 0) {
        return system_fails();
    }
    return written > 0 || length == 0 ? (int64_t)written : fails(EAGAIN);
}

int64_t read(int32_t file, char *buffer, uint64_t room) {
    int64_t length;
    do {
        length = read_once(handle_of(file), buffer, room);
    } while (length < 0 && last_error == EINTR);
    return length;
}

int64_t write(int32_t file, const char *bytes, uint64_t length) {
    int64_t written;
    do {
        written = write_once(handle_of(file), bytes, length);
    } while (written < 0 && last_error == EINTR);
    return written;
}

/* (Linux and Windows number the three ways to move alike.) */
int64_t lseek(int32_t file, int64_t offset, int32_t whence) {
    const handle moved = handle_of(file);
    int64_t position;
    if (GetFileType(moved) != DISK) {
        return fails(ESPIPE);
    }
    return SetFilePointerEx(moved, offset, &position, (uint32_t)whence) != 0 ? position : system_fails();
}

/* Whether a path begins with two slashes and a dot: it names a device or a pipe, whose server would see it opened. */
static bool names_device(const char *path) {
    const bool begins = (path[0] == '\\' || path[0] == '/') && (path[1] == '\\' || path[1] == '/');
    return begins && path[2] == '.' && (path[3] == '\\' || path[3] == '/');
}

/* A number that files share if they have the same owner and list of rights, or 0 if these aren't known. */
static uint32_t number_of_rights(handle file) {
    enum { OWNER_AND_LIST = 5 };
    static const uint32_t start = 2166136261, factor = 16777619; /* of the hash FNV-1a */
    uint32_t length = 0;
    GetKernelObjectSecurity(file, OWNER_AND_LIST, NULL, 0, &length);
    uint8_t *const rights = malloc(length);
    const bool is_known = rights != NULL && GetKernelObjectSecurity(file, OWNER_AND_LIST, rights, length, &length) != 0;
    uint32_t number = is_known ? start : 0;
    for (uint32_t at = 0; is_known && at < length; at++) {
        number = (number ^ rights[at]) * factor;
    }
    free(rights);
    return number;
}

/* Stores what an open file is, with Linux's numbers. Its rights are in place of a group. If they aren't known, it may not be
   replaced, like one with a second name. Only a disk has files with more than a kind. */
static int32_t describe(handle file, struct statx *found) {
    enum { DEVICE = 0020000, FOLDER = 0040000, FILE = 0100000, LINK = 0120000, WRITABLE = 0222, READABLE = 0444 };
    struct information its;
    memset(found, 0, sizeof *found);
    if (file == NULL || GetFileType(file) != DISK) {
        found->mode = DEVICE | READABLE | WRITABLE;
        return 0;
    }
    if (GetFileInformationByHandle(file, &its) == 0) {
        return system_fails();
    }
    const uint32_t kind = (its.attributes & IS_LINK) != 0 ? LINK : (its.attributes & IS_FOLDER) != 0 ? FOLDER : FILE;
    found->mode = (uint16_t)(kind | READABLE | ((its.attributes & IS_READ_ONLY) != 0 ? 0 : WRITABLE));
    found->group = number_of_rights(file);
    found->links = its.links + (found->group == 0);
    found->length = (uint64_t)its.length_high << 32 | its.length_low;
    found->number = (uint64_t)its.index_high << 32 | its.index_low;
    found->of_device_minor = its.volume;
    return 0;
}

int32_t statx(int32_t file, const char *path, int32_t flags, uint32_t mask, struct statx *found) {
    enum { OF_DESCRIPTOR = 0x1000, OF_LINK = 0x100 /* on Linux */ };
    (void)mask;
    if ((flags & OF_DESCRIPTOR) != 0 || names_device(path)) {
        return describe((flags & OF_DESCRIPTOR) != 0 ? handle_of(file) : NULL, found);
    }
    unit *const name = path_of(path);
    if (name == NULL) {
        return fails(ENOMEM);
    }
    const uint32_t link = (flags & OF_LINK) != 0 ? LINK_ITSELF : 0;
    const uint32_t how = EVEN_FOLDERS | IDENTIFY_ONLY | link;
    const handle opened = CreateFileW(name, READING_RIGHTS, SHARED_WITH_ALL, NULL, EXISTING, how, NULL);
    const int32_t answer = opened == NO_FILE ? system_fails() : describe(opened, found);
    free(name);
    if (opened != NO_FILE) {
        CloseHandle(opened);
    }
    return answer;
}

int32_t fsync(int32_t file) {
    return FlushFileBuffers(handle_of(file)) != 0 ? 0 : system_fails();
}

/* A new file has the rights that its folder gives. If they are those of FILE, nothing has to change. Otherwise the program calls
   `fchown`, and writes FILE directly, since that fails. (ReplaceFileW keeps FILE's rights, but can't open a file that is open here,
   and may leave no file of FILE's name.) */
int32_t fchmod(int32_t file, uint32_t mode) {
    (void)file, (void)mode;
    return 0;
}

int32_t fchown(int32_t file, uint32_t owner, uint32_t group) {
    (void)file, (void)owner, (void)group;
    return fails(EPERM);
}

int32_t rename(const char *from, const char *to) {
    unit *const old_name = path_of(from), *const new_name = path_of(to);
    const bool has_memory = old_name != NULL && new_name != NULL;
    const int32_t answer = !has_memory ? fails(ENOMEM) : MoveFileExW(old_name, new_name, REPLACE_AND_WAIT) != 0 ? 0 : system_fails();
    free(old_name);
    free(new_name);
    return answer;
}

int32_t unlink(const char *path) {
    unit *const name = path_of(path);
    const int32_t answer = name == NULL ? fails(ENOMEM) : DeleteFileW(name) != 0 ? 0 : system_fails();
    free(name);
    return answer;
}

int32_t getentropy(uint8_t *bytes, uint64_t length) {
    for (unsigned number; length > 0; length--) {
        if (rand_s(&number) != 0) {
            return fails(EIO);
        }
        *bytes++ = (uint8_t)number;
    }
    return 0;
}

/* The program is linked with these and doesn't call them. */
int32_t ftruncate(int32_t file, int64_t length) {
    (void)file, (void)length;
    return fails(EINVAL);
}

int32_t fdatasync(int32_t file) {
    (void)file;
    return fails(EINVAL);
}

int32_t flock(int32_t file, int32_t how) {
    (void)file, (void)how;
    return fails(EINVAL);
}

/* There is no such signal: to write to a closed pipe fails. */
void *__sysv_signal(int32_t signal, void *handler) {
    (void)signal;
    (void)handler;
    return NULL;
}

/* ---- The program. */

int32_t module_main(void);

/* The system must not ask the user for a disk. */
void start(void) {
    static const char fault[] = "fault: memory\n";
    SetErrorMode(NO_QUESTIONS);
    find_streams();
    if (!take_arguments()) {
        write(2, fault, sizeof fault - 1);
        ExitProcess(4);
    }
    begin_colours();
    const int32_t status = module_main();
    end_colours();
    ExitProcess((uint32_t)status);
}
