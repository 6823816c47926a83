/* Asks about changed and made buffers of every small size, each of which ends where its memory ends, by every flag, and as
 * files too. A wrong access ends the program by a sanitizer; a missing answer is counted.
 * usage: hostile FILE, whose bytes are the samples, each after its length in two bytes */
#define _GNU_SOURCE
#include "../src/magic_set.h"
#include <stdio.h>
#include <stdlib.h>
#include <string.h>
#include <sys/mman.h>
#include <unistd.h>

typedef struct magic_set *magic_t;
magic_t magic_open(int flags);
void magic_close(magic_t it);
int magic_load(magic_t it, const char *paths);
int magic_setflags(magic_t it, int flags);
int magic_load_buffers(magic_t it, void **texts, size_t *sizes, size_t count);
const char *magic_buffer(magic_t it, const void *bytes, size_t len);
const char *magic_descriptor(magic_t it, int fd);
const char *magic_error(magic_t it);

enum { ROUNDS = 20000, MOST = 4096, FILES_OF = 16, TEXTS_OF = 8 };
static const int FLAGS[] = {0, MAGIC_MIME_TYPE, MAGIC_MIME_ENCODING, MAGIC_MIME, MAGIC_EXTENSION, MAGIC_APPLE, MAGIC_NO_CHECK_SOFT, MAGIC_MIME | MAGIC_NO_CHECK_ENCODING};
static uint64_t state = 0x9E3779B97F4A7C15;
static long wrong;

static uint64_t next(void) {
    state ^= state << 13;
    state ^= state >> 7;
    state ^= state << 17;
    return state;
}

/* A sample of the file, with some bytes changed and more or fewer behind it. The caller frees it. */
static unsigned char *made(const unsigned char *samples, size_t size, size_t *len) {
    size_t at = 0, hops = next() % 400;
    while (hops-- > 0) {
        at += 2 + (size_t)(samples[at] << 8 | samples[at + 1]);
        if (at + 2 > size) at = 0;
    }
    size_t whole = (size_t)(samples[at] << 8 | samples[at + 1]);
    *len = next() % 4 == 0 ? next() % (MOST + 1) : whole + next() % 64;
    unsigned char *bytes = malloc(*len ? *len : 1);
    for (size_t place = 0; place < *len; place++) bytes[place] = place < whole ? samples[at + 2 + place] : (unsigned char)next();
    for (size_t changes = next() % 5; changes > 0 && *len > 0; changes--) bytes[next() % *len] = (unsigned char)next();
    return bytes;
}

static void wants(magic_t it, const char *answer) { wrong += answer == NULL || *answer == '\0' || strlen(answer) > 600 || magic_error(it) != NULL; }

static void ask_file(magic_t it, int fd, const unsigned char *bytes, size_t len) {
    if (ftruncate(fd, 0) != 0 || pwrite(fd, bytes, len, 0) != (ssize_t)len) abort();
    lseek(fd, 0, SEEK_SET);
    wants(it, magic_descriptor(it, fd));
    wrong += lseek(fd, 0, SEEK_CUR) != 0;
}

/* The bytes as a text of types, which a handle takes or refuses with a reason. */
static void load(const unsigned char *bytes, size_t len) {
    magic_t it = magic_open(MAGIC_MIME);
    void *texts[] = {(void *)(uintptr_t)bytes};
    size_t sizes[] = {len};
    if (magic_load_buffers(it, texts, sizes, 1) != 0) wrong += magic_error(it) == NULL;
    else wants(it, magic_buffer(it, bytes, len));
    magic_close(it);
}

int main(int count, char **words) {
    static unsigned char samples[1 << 20];
    FILE *file = count == 2 ? fopen(words[1], "rb") : NULL;
    int fd = memfd_create("asked", 0);
    if (file == NULL || fd < 0) return 2;
    size_t size = fread(samples, 1, sizeof samples, file);
    fclose(file);
    magic_t it = magic_open(0);
    if (magic_load(it, NULL) != 0) return 2;
    for (int round = 0; round < ROUNDS; round++) {
        size_t len;
        unsigned char *bytes = made(samples, size, &len);
        magic_setflags(it, FLAGS[next() % (sizeof FLAGS / sizeof FLAGS[0])]);
        wants(it, magic_buffer(it, bytes, len));
        if (round % FILES_OF == 0) ask_file(it, fd, bytes, len);
        if (round % TEXTS_OF == 0) load(bytes, len);
        free(bytes);
    }
    magic_close(it);
    printf("%d buffers, %ld wrong\n", ROUNDS, wrong);
    return wrong != 0;
}
