/* Whether the host repeats calls that another program ended. Wine ends none, so functions of this file take the place of Windows'
   own. The status is 0 if all is right. */
#define GetConsoleMode own_GetConsoleMode
#define GetLastError own_GetLastError
#define MultiByteToWideChar own_MultiByteToWideChar
#define PeekNamedPipe own_PeekNamedPipe
#define ReadConsoleW own_ReadConsoleW
#define ReadFile own_ReadFile
#define SetLastError own_SetLastError
#define WideCharToMultiByte own_WideCharToMultiByte
#define WriteConsoleW own_WriteConsoleW
#define WriteFile own_WriteFile
#include "../host.c"

#define CONSOLE ((handle)16)

static int calls;

/* The first two calls are ended. */
static int is_done(uint32_t *length) {
    *length = 1;
    return ++calls % 3 == 0;
}

uint32_t GetLastError(void) {
    return 995;
}

void SetLastError(uint32_t error) {
    (void)error;
}

int GetConsoleMode(handle file, uint32_t *mode) {
    *mode = 0;
    return file == CONSOLE;
}

int PeekNamedPipe(handle pipe, void *buffer, uint32_t room, uint32_t *length, uint32_t *there, uint32_t *left) {
    (void)pipe, (void)buffer, (void)room, (void)length, (void)there, (void)left;
    return 0;
}

int ReadFile(handle file, char *buffer, uint32_t room, uint32_t *length, void *overlapped) {
    (void)file, (void)room, (void)overlapped;
    *buffer = 'r';
    return is_done(length);
}

int WriteFile(handle file, const char *bytes, uint32_t length, uint32_t *written, void *overlapped) {
    (void)file, (void)bytes, (void)length, (void)overlapped;
    return is_done(written);
}

int ReadConsoleW(handle console, unit *units, uint32_t room, uint32_t *length, void *control) {
    (void)console, (void)room, (void)control;
    *units = 'c';
    return is_done(length);
}

int WriteConsoleW(handle console, const unit *units, uint32_t length, uint32_t *written, void *nothing) {
    (void)console, (void)units, (void)length, (void)nothing;
    return is_done(written);
}

int MultiByteToWideChar(uint32_t page, uint32_t flags, const char *bytes, int length, unit *units, int room) {
    (void)page, (void)flags, (void)length, (void)room;
    *units = (unit)*bytes;
    return 1;
}

int WideCharToMultiByte(uint32_t page, uint32_t flags, const unit *units, int length, char *bytes, int room, const char *other,
                        int *is_other_used) {
    (void)page, (void)flags, (void)length, (void)room, (void)other, (void)is_other_used;
    *bytes = (char)*units;
    return 1;
}

int32_t module_main(void) {
    return 0;
}

int main(void) {
    char byte = 0;
    streams[0] = CONSOLE;
    const bool reads = read(20, &byte, 1) == 1 && byte == 'r' && read(0, &byte, 1) == 1 && byte == 'c';
    streams[1] = CONSOLE;
    const bool writes = write(20, "w", 1) == 1 && write(1, "w", 1) == 1;
    return reads && writes && calls == 12 ? 0 : 1;
}
