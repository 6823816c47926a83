/* Which kind of ELF file it is: by e_type, and of a shared object by the flags in its dynamic section. */
#define _POSIX_C_SOURCE 200809L
#include "magic_set.h"
#include <elf.h>
#include <string.h>
#include <unistd.h>

#ifndef DF_1_PIE
#define DF_1_PIE 0x08000000
#endif

/* A number as the file has it. */
struct reader {
    const struct front *front;
    bool is_big, is_wide;
};

/* How far a dynamic section is read, and how many program headers are. */
enum { ENTRIES_MAX = 4096, HEADERS_MAX = 2048, ADDRESS_SIZE = 8, WORD_SIZE = 4 };

/* Reads `size` bytes at that place of the buffer, or of the file behind it. */
static bool bytes_at(const struct reader *it, uint64_t at, unsigned char *out, size_t size) {
    const struct front *front = it->front;
    if (at <= front->len && size <= front->len - at) {
        memcpy(out, front->bytes + at, size);
        return true;
    }
    return front->fd >= 0 && at <= INT64_MAX - size && pread(front->fd, out, size, (off_t)at) == (ssize_t)size;
}

static uint64_t number_of(const struct reader *it, const unsigned char *bytes, size_t size) {
    uint64_t number = 0;
    for (size_t at = 0; at < size; at++) number = number << 8 | bytes[it->is_big ? at : size - 1 - at];
    return number;
}

/* The number of so many bytes at that place; 0 if it is not there. */
static uint64_t number_at(const struct reader *it, uint64_t at, size_t size) {
    unsigned char bytes[ADDRESS_SIZE];
    return bytes_at(it, at, bytes, size) ? number_of(it, bytes, size) : 0;
}

/* Whether the flags of the dynamic section of that place and size say that it is an executable. */
static bool has_flag_of_executable(const struct reader *it, uint64_t at, uint64_t size) {
    size_t width = it->is_wide ? ADDRESS_SIZE : WORD_SIZE;
    uint64_t count = size / (2 * width);
    for (uint64_t entry = 0; entry < count && entry < ENTRIES_MAX; entry++) {
        unsigned char bytes[2 * ADDRESS_SIZE];
        if (!bytes_at(it, at + entry * 2 * width, bytes, 2 * width)) return false;
        uint64_t tag = number_of(it, bytes, width);
        if (tag == DT_FLAGS_1) return number_of(it, bytes + width, width) & DF_1_PIE;
        if (tag == DT_NULL) return false;
    }
    return false;
}

/* The place of a field in the structure of either width. */
#define FIELD(it, structure, field) ((it)->is_wide ? offsetof(Elf64_##structure, field) : offsetof(Elf32_##structure, field))

static bool is_executable(const struct reader *it) {
    size_t width = it->is_wide ? ADDRESS_SIZE : WORD_SIZE;
    uint64_t headers = number_at(it, FIELD(it, Ehdr, e_phoff), width);
    uint64_t size = number_at(it, FIELD(it, Ehdr, e_phentsize), sizeof(Elf64_Half));
    uint64_t count = number_at(it, FIELD(it, Ehdr, e_phnum), sizeof(Elf64_Half));
    if (headers > INT64_MAX / 2) return false;
    for (uint64_t header = 0; header < count && header < HEADERS_MAX; header++) {
        uint64_t at = headers + header * size;
        if (number_at(it, at + FIELD(it, Phdr, p_type), WORD_SIZE) != PT_DYNAMIC) continue;
        uint64_t place = number_at(it, at + FIELD(it, Phdr, p_offset), width);
        return place <= INT64_MAX / 2 && has_flag_of_executable(it, place, number_at(it, at + FIELD(it, Phdr, p_filesz), width));
    }
    return false;
}

struct name name_of_elf(const struct front *front, bool asks_dynamic) {
    static const struct name KINDS[] = {
        [ET_NONE] = {"application/octet-stream", "???", "ELF", OF_ELF},
        [ET_REL] = {"application/x-object", "???", "ELF relocatable", OF_ELF},
        [ET_EXEC] = {"application/x-executable", "???", "ELF executable", OF_ELF},
        [ET_DYN] = {"application/x-sharedlib", "???", "ELF shared object", OF_ELF},
        [ET_CORE] = {"application/x-coredump", "???", "ELF core file", OF_ELF},
    };
    static const struct name EXECUTABLE = {"application/x-pie-executable", "???", "ELF pie executable", OF_ELF};
    struct reader it = {front, false, false};
    if (front->len > EI_DATA) {
        it.is_wide = front->bytes[EI_CLASS] == ELFCLASS64;
        it.is_big = front->bytes[EI_DATA] == ELFDATA2MSB;
    }
    uint64_t type = number_at(&it, EI_NIDENT, sizeof(Elf64_Half));
    if (type == ET_DYN && asks_dynamic && is_executable(&it)) return EXECUTABLE;
    return KINDS[type < sizeof KINDS / sizeof KINDS[0] ? type : ET_NONE];
}
