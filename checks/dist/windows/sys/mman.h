// What checks/c-library/ends.c takes of POSIX, for Windows: memory with a page behind it that may not be touched.
// Files have plain line feeds.
#ifndef MMAN_H
#define MMAN_H
#include <fcntl.h>
#include <stddef.h>
#include <stdlib.h>

enum { PROT_NONE = 1, PROT_READ = 2, PROT_WRITE = 4, MAP_PRIVATE, MAP_ANONYMOUS, _SC_PAGESIZE, COMMITTED = 0x3000 };
#define MAP_FAILED NULL

// of kernel32; windows.h itself has names that the check has, too
__declspec(dllimport) void *__stdcall VirtualAlloc(void *at, size_t size, unsigned long how, unsigned long access);
__declspec(dllimport) int __stdcall VirtualProtect(void *at, size_t size, unsigned long access, unsigned long *before);

static inline long sysconf(int what) {
    (void)what;
    return 4096;
}

static inline void *mmap(void *at, size_t size, int access, int how, int file, long from) {
    (void)how, (void)file, (void)from;
    return VirtualAlloc(at, size, COMMITTED, (unsigned long)access & 4 ? 4 : 1);
}

static inline int mprotect(void *at, size_t size, int access) {
    unsigned long before;
    return VirtualProtect(at, size, (unsigned long)access & 4 ? 4 : 1, &before) ? 0 : -1;
}

__attribute__((constructor)) static void write_plain_lines(void) {
    _fmode = _O_BINARY;
}
#endif
