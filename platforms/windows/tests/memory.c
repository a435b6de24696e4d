/* tests/memory.c of the library of C over bcs.dll as it is: the addresses of malloc, realloc and free that it imports are replaced
   by those of functions that refuse each request in turn. */
#define main sweep_all
#include "../../../bindings/c/tests/memory.c"
#undef main
#include <malloc.h>

static void *own_malloc(size_t length) {
    const struct tried tried = rattle_alloc(length, 16);
    return tried.ok ? tried.block : NULL;
}

static void *own_realloc(void *block, size_t length) {
    const struct tried tried = rattle_realloc(block, _msize(block), length, 16);
    return tried.ok ? tried.block : NULL;
}

static const IMAGE_DATA_DIRECTORY *directory_of(const uint8_t *module, size_t which) {
    const IMAGE_DOS_HEADER *const dos = (const IMAGE_DOS_HEADER *)module;
    const IMAGE_NT_HEADERS64 *const headers = (const IMAGE_NT_HEADERS64 *)(module + dos->e_lfanew);
    return &headers->OptionalHeader.DataDirectory[which];
}

/* Replaces one address of those that a module imports from msvcrt.dll. */
static void replace(uint8_t *module, const char *name, void *own) {
    const IMAGE_IMPORT_DESCRIPTOR *from =
        (const IMAGE_IMPORT_DESCRIPTOR *)(module + directory_of(module, IMAGE_DIRECTORY_ENTRY_IMPORT)->VirtualAddress);
    while (from->Name != 0 && strcmp((const char *)module + from->Name, "msvcrt.dll") != 0) {
        from++;
    }
    CHECK(from->Name != 0);
    const IMAGE_THUNK_DATA64 *names = (const IMAGE_THUNK_DATA64 *)(module + from->OriginalFirstThunk);
    void **address = (void **)(module + from->FirstThunk);
    while (names->u1.AddressOfData != 0 &&
           strcmp((const char *)((const IMAGE_IMPORT_BY_NAME *)(module + names->u1.AddressOfData))->Name, name) != 0) {
        names++;
        address++;
    }
    CHECK(names->u1.AddressOfData != 0);
    CHECK(mprotect(address, sizeof *address, PAGE_READWRITE) == 0);
    *address = own;
}

int main(void) {
    uint8_t *const module = (uint8_t *)GetModuleHandleA("bcs.dll");
    CHECK(module != NULL);
    replace(module, "malloc", (void *)own_malloc);
    replace(module, "realloc", (void *)own_realloc);
    replace(module, "free", (void *)rattle_dealloc);
    return sweep_all();
}
