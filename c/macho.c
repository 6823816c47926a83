/* Lets a program of Linux call the libinfer.dylib that the variable INFER_DYLIB names, on the processor that it is for: it maps
 * the segments, adds to each pointer where they were put, and binds what the library takes of the C library. c/test links it in
 * place of libinfer.a. It stands for what a Mac does as a library is loaded, and knows just what c/build --for writes. */
#define _GNU_SOURCE
#include <fcntl.h>
#include <stdint.h>
#include <stdio.h>
#include <stdlib.h>
#include <string.h>
#include <strings.h>
#include <sys/mman.h>
#include <sys/stat.h>
#include <unistd.h>

/* The calls of infer.h, whose names stand one after the other; each jumps to its place of these. */
extern const char infer_calls[];
extern void *infer_places[];

enum { MAGIC = 0xFEEDFACF, SYMBOL_TABLE = 0x2, SEGMENT = 0x19, DYLD_INFO = (int)0x80000022, MOST_SEGMENTS = 8 };
struct header { uint32_t magic, processor, kind, file_type, commands, size, flags, reserved; };
struct command { uint32_t number, size; };
struct segment { uint32_t number, size; char name[16]; uint64_t address, room, offset, bytes; uint32_t most, first, sections, flags; };
struct symbols { uint32_t number, size, offset, count, names, names_size; };
struct symbol { uint32_t name; uint8_t type, section; uint16_t about; uint64_t address; };
struct info { uint32_t number, size, rebase, rebase_size, bind, bind_size, weak, weak_size, lazy, lazy_size, exported, exported_size; };

static const unsigned char *file;
static unsigned char *base;
static const struct segment *segments[MOST_SEGMENTS];
static size_t count;

static void fail(const char *why) {
    fprintf(stderr, "macho: %s\n", why);
    exit(3);
}

static uint64_t number(const unsigned char **from) {
    uint64_t value = 0;
    for (int shift = 0;; shift += 7) {
        value |= (uint64_t)(**from & 0x7F) << shift;
        if (*(*from)++ < 0x80) return value;
    }
}

/* What the library may take of the C library. */
static void *outside(const char *name) {
    const struct { const char *name; void *at; } known[] = {
        {"_memcpy", (void *)memcpy}, {"_memmove", (void *)memmove}, {"_memset", (void *)memset},
        {"___bzero", (void *)bzero}, {"_bzero", (void *)bzero}, {"dyld_stub_binder", (void *)abort},
    };
    for (size_t i = 0; i < sizeof known / sizeof *known; i++)
        if (strcmp(known[i].name, name) == 0) return known[i].at;
    fail(name);
    return NULL;
}

/* The instructions of both lists tell a place, and then how many pointers from there on are changed, and how far apart. */
static unsigned char *changed(unsigned char *at, uint64_t times, uint64_t apart, void *bound) {
    for (; times > 0; times--, at += sizeof(uint64_t) + apart) {
        uint64_t value;
        memcpy(&value, at, sizeof value);
        value = bound ? (uint64_t)(uintptr_t)bound : value + (uint64_t)(uintptr_t)base;
        memcpy(at, &value, sizeof value);
    }
    return at;
}

static unsigned char *place(size_t segment, const unsigned char **from) {
    if (segment >= count) fail("a place in no segment");
    return base + segments[segment]->address + number(from);
}

static void rebase(const unsigned char *from, size_t size) {
    unsigned char *at = base;
    uint64_t times;
    for (const unsigned char *end = from + size; from < end;) {
        unsigned word = *from & 0xF0, low = *from++ & 0x0F;
        switch (word) {
        case 0x00: return;
        case 0x10: break;
        case 0x20: at = place(low, &from); break;
        case 0x30: at += number(&from); break;
        case 0x40: at += sizeof(uint64_t) * low; break;
        case 0x50: at = changed(at, low, 0, NULL); break;
        case 0x60: at = changed(at, number(&from), 0, NULL); break;
        case 0x70: at = changed(at, 1, number(&from), NULL); break;
        case 0x80: times = number(&from); at = changed(at, times, number(&from), NULL); break;
        default: fail("an unknown word of the list of pointers");
        }
    }
}

static void bind(const unsigned char *from, size_t size) {
    unsigned char *at = base;
    const char *name = "";
    uint64_t times;
    for (const unsigned char *end = from + size; from < end;) {
        unsigned word = *from & 0xF0, low = *from++ & 0x0F;
        switch (word) {
        case 0x00: case 0x10: case 0x30: case 0x50: break;
        case 0x40: name = (const char *)from; from += strlen(name) + 1; break;
        case 0x70: at = place(low, &from); break;
        case 0x80: at += number(&from); break;
        case 0x90: at = changed(at, 1, 0, outside(name)); break;
        case 0xA0: at = changed(at, 1, number(&from), outside(name)); break;
        case 0xB0: at = changed(at, 1, sizeof(uint64_t) * low, outside(name)); break;
        case 0xC0: times = number(&from); at = changed(at, times, number(&from), outside(name)); break;
        default: fail("an unknown word of the list of names");
        }
    }
}

static void find_calls(const struct symbols *table) {
    const struct symbol *symbols = (const struct symbol *)(const void *)(file + table->offset);
    size_t at = 0;
    for (const char *name = infer_calls; *name; name += strlen(name) + 1, at++) {
        for (uint32_t i = 0; i < table->count && !infer_places[at]; i++) {
            const char *its = (const char *)file + table->names + symbols[i].name;
            /* The bits of a symbol that is defined and seen from outside. */
            if ((symbols[i].type & 0x0F) == 0x0F && its[0] == '_' && strcmp(its + 1, name) == 0) infer_places[at] = base + symbols[i].address;
        }
        if (!infer_places[at]) fail(name);
    }
}

static const unsigned char *mapped_file(const char *path) {
    struct stat about;
    int fd = path ? open(path, O_RDONLY | O_CLOEXEC) : -1;
    if (fd < 0 || fstat(fd, &about) != 0) fail("INFER_DYLIB names no file");
    void *at = mmap(NULL, (size_t)about.st_size, PROT_READ, MAP_PRIVATE, fd, 0);
    close(fd);
    if (at == MAP_FAILED) fail("the file cannot be read");
    return at;
}

static void copy_segments(void) {
    const struct segment *last = segments[count - 1];
    base = mmap(NULL, last->address + last->room, PROT_READ | PROT_WRITE, MAP_PRIVATE | MAP_ANONYMOUS, -1, 0);
    if (base == MAP_FAILED) fail("no memory");
    for (size_t i = 0; i < count; i++) memcpy(base + segments[i]->address, file + segments[i]->offset, segments[i]->bytes);
}

__attribute__((constructor)) static void load(void) {
    const struct info *info = NULL;
    const struct symbols *table = NULL;
    file = mapped_file(getenv("INFER_DYLIB"));
    const struct header *header = (const void *)file;
    if (header->magic != MAGIC) fail("no Mach-O file of 64 bits");
    const unsigned char *at = file + sizeof *header;
    for (uint32_t i = 0; i < header->commands; i++) {
        const struct command *command = (const void *)at;
        if (command->number == SEGMENT && count < MOST_SEGMENTS) segments[count++] = (const void *)at;
        if (command->number == (uint32_t)DYLD_INFO) info = (const void *)at;
        if (command->number == SYMBOL_TABLE) table = (const void *)at;
        at += command->size;
    }
    if (!info || !table || count == 0) fail("the file lacks what is loaded");
    copy_segments();
    rebase(file + info->rebase, info->rebase_size);
    bind(file + info->bind, info->bind_size);
    bind(file + info->lazy, info->lazy_size);
    find_calls(table);
    for (size_t i = 0; i < count; i++) {
        unsigned char *from = base + segments[i]->address;
        if (strcmp(segments[i]->name, "__TEXT") == 0) {
            mprotect(from, segments[i]->room, PROT_READ | PROT_EXEC);
            __builtin___clear_cache((char *)from, (char *)from + segments[i]->room);
        }
    }
}
