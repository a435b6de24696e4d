/* What the toolchain has no headers for: the functions of Windows that are used here, and the numbers that they take. */
#ifndef BCS_WINDOWS_H
#define BCS_WINDOWS_H

#include <stddef.h>
#include <stdint.h>
#include <stdlib.h>

typedef void *handle;
typedef uint16_t unit; /* of UTF-16 */

#define NO_FILE ((handle)(intptr_t)-1)

enum {
    STANDARD_INPUT = -10,
    STANDARD_OUTPUT = -11,
    CODE_PAGE_UTF8 = 65001,
    INVALID_IS_ERROR = 0x80,     /* WC_ERR_INVALID_CHARS */
    INVALID_IS_ERROR_TOO = 8,    /* MB_ERR_INVALID_CHARS */
    COLOURS_BY_SEQUENCES = 4,    /* ENABLE_VIRTUAL_TERMINAL_PROCESSING */
    SHARED_WITH_ALL = 7,         /* FILE_SHARE_READ, _WRITE and _DELETE */
    CREATED = 1,                 /* CREATE_NEW */
    EMPTIED = 2,                 /* CREATE_ALWAYS */
    EXISTING = 3,                /* OPEN_EXISTING */
    EVEN_FOLDERS = 0x02000000,   /* FILE_FLAG_BACKUP_SEMANTICS */
    LINK_ITSELF = 0x00200000,    /* FILE_FLAG_OPEN_REPARSE_POINT */
    IDENTIFY_ONLY = 0x00110000,  /* SECURITY_SQOS_PRESENT, SECURITY_IDENTIFICATION */
    READING_RIGHTS = 0x00020000, /* READ_CONTROL */
    UNKNOWN = 0,                 /* FILE_TYPE_UNKNOWN */
    DISK = 1,                    /* FILE_TYPE_DISK */
    IS_READ_ONLY = 0x1,          /* FILE_ATTRIBUTE_READONLY */
    IS_FOLDER = 0x10,            /* FILE_ATTRIBUTE_DIRECTORY */
    IS_LINK = 0x400,             /* FILE_ATTRIBUTE_REPARSE_POINT */
    REPLACE_AND_WAIT = 9,        /* MOVEFILE_REPLACE_EXISTING, MOVEFILE_WRITE_THROUGH */
    PIPE_IS_CLOSED = 109,        /* ERROR_BROKEN_PIPE */
    MESSAGE_IS_LONGER = 234,     /* ERROR_MORE_DATA */
    NO_QUESTIONS = 0x8001,       /* SEM_FAILCRITICALERRORS, SEM_NOOPENFILEERRORBOX */
    LONGEST_PATH = 260,          /* MAX_PATH, with the 0 at its end */
    KEEP_WILDCARDS = 0,
    HIGH_SURROGATE = 0xd800 >> 10,
    CONTROL_Z = 0x1a,
    MOST_BYTES = 1 << 20,        /* that one call reads or writes */
};
#define READING 0x80000000u      /* GENERIC_READ */
#define WRITING 0x40000000u      /* GENERIC_WRITE */

/* BY_HANDLE_FILE_INFORMATION */
struct information {
    uint32_t attributes, times[6], volume, length_high, length_low, links, index_high, index_low;
};

/* KERNEL32.dll */
int CloseHandle(handle file);
handle CreateFileW(const unit *name, uint32_t access, uint32_t sharing, void *security, uint32_t how, uint32_t flags, handle like);
int DeleteFileW(const unit *name);
void ExitProcess(uint32_t status);
int FlushFileBuffers(handle file);
int GetConsoleMode(handle console, uint32_t *mode);
uint32_t GetEnvironmentVariableW(const unit *name, unit *value, uint32_t room);
int GetFileInformationByHandle(handle file, struct information *found);
uint32_t GetFileType(handle file);
uint32_t GetFullPathNameW(const unit *path, uint32_t room, unit *whole, unit **last);
uint32_t GetLastError(void);
handle GetStdHandle(uint32_t which);
int MoveFileExW(const unit *from, const unit *to, uint32_t how);
int MultiByteToWideChar(uint32_t page, uint32_t flags, const char *bytes, int length, unit *units, int room);
int PeekNamedPipe(handle pipe, void *buffer, uint32_t room, uint32_t *length, uint32_t *there, uint32_t *left);
int ReadConsoleW(handle console, unit *units, uint32_t room, uint32_t *length, void *control);
int ReadFile(handle file, char *buffer, uint32_t room, uint32_t *length, void *overlapped);
int SetConsoleMode(handle console, uint32_t mode);
uint32_t SetErrorMode(uint32_t mode);
int SetFilePointerEx(handle file, int64_t offset, int64_t *position, uint32_t whence);
void SetLastError(uint32_t error);
int WideCharToMultiByte(uint32_t page, uint32_t flags, const unit *units, int length, char *bytes, int room, const char *other,
                        int *is_other_used);
int WriteConsoleW(handle console, const unit *units, uint32_t length, uint32_t *written, void *nothing);
int WriteFile(handle file, const char *bytes, uint32_t length, uint32_t *written, void *overlapped);

/* ADVAPI32.dll */
int GetKernelObjectSecurity(handle file, uint32_t asked, void *rights, uint32_t room, uint32_t *length);

/* msvcrt.dll. <stdlib.h> declares its heap. */
int __wgetmainargs(int *count, unit ***words, unit ***environment, int wildcards, int *options);
int memcmp(const void *first, const void *second, size_t length);
void *memcpy(void *to, const void *from, size_t length);
void *memmove(void *to, const void *from, size_t length);
void *memset(void *to, int byte, size_t length);
int rand_s(unsigned *number);

#endif
