/* Room that ends where nothing may be read or written: who does is ended by a signal, or by what Windows has for one. */
#ifndef GUARDED_H
#define GUARDED_H

#include <stddef.h>
#ifdef _WIN32
#include <windows.h>

enum { GUARD_PAGE = 4096 };

/* That much of pages of zeros between two that may not be touched, or a null pointer. */
static inline unsigned char *guarded(size_t pages_size) {
    DWORD before;
    unsigned char *at = VirtualAlloc(NULL, pages_size + 2 * GUARD_PAGE, MEM_RESERVE | MEM_COMMIT, PAGE_READWRITE);
    if (!at || !VirtualProtect(at, GUARD_PAGE, PAGE_NOACCESS, &before)) return NULL;
    return VirtualProtect(at + GUARD_PAGE + pages_size, GUARD_PAGE, PAGE_NOACCESS, &before) ? at + GUARD_PAGE : NULL;
}
#else
#include <sys/mman.h>

/* As much as the largest page of any machine that is asked. */
enum { GUARD_PAGE = 65536 };

static inline unsigned char *guarded(size_t pages_size) {
    unsigned char *at = mmap(NULL, pages_size + 2 * GUARD_PAGE, PROT_READ | PROT_WRITE, MAP_PRIVATE | MAP_ANONYMOUS, -1, 0);
    if (at == MAP_FAILED || mprotect(at, GUARD_PAGE, PROT_NONE) != 0) return NULL;
    return mprotect(at + GUARD_PAGE + pages_size, GUARD_PAGE, PROT_NONE) == 0 ? at + GUARD_PAGE : NULL;
}
#endif

/* The size in whole pages. */
static inline size_t whole_pages(size_t size) { return (size + GUARD_PAGE - 1) / GUARD_PAGE * GUARD_PAGE; }

#endif
