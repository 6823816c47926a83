/* What infer_tool asks of C besides the C library. The toolchain has these functions for x86-64; these are for ARM64. Nothing
   of them is proved. What each has to do stands where the toolchain declares it: rattle/os/src/c.rt, rattle/libc/src/heap.rt. */
#include <errno.h>
#include <stdbool.h>
#include <stddef.h>
#include <stdlib.h>
#include <string.h>
#include <sys/types.h>

struct tried {
    bool ok;
    void *block;
};

/* What stands in place of a block where there is no memory. It is never read. */
static _Alignas(16) char none[16];

static struct tried tried(void *block) {
    return (struct tried){block != NULL, block != NULL ? block : none};
}

/* An alignment divides 16, so each block of malloc has it. A value without bytes has a block too. */
struct tried rattle_alloc(size_t size, size_t alignment) {
    return tried(malloc(size != 0 ? size : alignment));
}

struct tried rattle_realloc(void *block, size_t kept, size_t size, size_t alignment) {
    (void)kept;
    return tried(realloc(block, size != 0 ? size : alignment));
}

void rattle_dealloc(void *block) {
    free(block);
}

int rattle_errno(void) {
    return errno;
}

void rattle_set_errno(int error) {
    errno = error;
}

static size_t count;
static char **words;

/* glibc passes the program's words to what runs before main. */
__attribute__((constructor)) static void keep_words(int argc, char **argv) {
    count = (size_t)argc;
    words = argv;
}

ssize_t rattle_arg(size_t number, char *room, size_t size) {
    size_t length;
    if (number >= count)
        return -1;
    length = strlen(words[number]);
    memcpy(room, words[number], length < size ? length : size);
    return length <= size ? (ssize_t)length : -2;
}
