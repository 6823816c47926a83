/* What a path or a descriptor leads to. */
#define _POSIX_C_SOURCE 200809L
#include "magic_set.h"
#include <errno.h>
#include <fcntl.h>
#include <limits.h>
#include <stdint.h>
#include <stdlib.h>
#include <string.h>
#include <sys/stat.h>
#include <unistd.h>

/* How many bytes tell most types. */
#define FRONT 8192

/* Old documents of Office are told behind their front. */
static const unsigned char COMPOUND[] = {0xD0, 0xCF, 0x11, 0xE0, 0xA1, 0xB1, 0x1A, 0xE1};

static bool has_room(struct magic_set *it, size_t size) {
    if (it->room >= size) return true;
    unsigned char *wider = realloc(it->read, size);
    if (wider == NULL) return false;
    it->read = wider;
    it->room = size;
    return true;
}

static ssize_t read_again(int fd, unsigned char *to, size_t size) {
    ssize_t got;
    do
        got = read(fd, to, size);
    while (got < 0 && errno == EINTR);
    return got;
}

/* The least that a read brings after which there is another. What was written to a pipe together comes together, and of a
 * socket or a terminal nobody knows whether more will come. */
static size_t least_of(mode_t mode) { return S_ISREG(mode) || S_ISBLK(mode) ? 1 : S_ISFIFO(mode) ? PIPE_BUF : SIZE_MAX; }

/* Fills what is read up to so many bytes, from the `count` that are there. How many are there then, or -1. */
static ssize_t read_up_to(struct magic_set *it, int fd, size_t count, size_t size, size_t least) {
    while (count < size) {
        ssize_t got = read_again(fd, it->read + count, size - count);
        if (got < 0) return count == 0 ? -1 : (ssize_t)count;
        count += (size_t)got;
        if ((size_t)got < least) break;
    }
    return (ssize_t)count;
}

/* How many bytes are wanted, of which the first are there: all of an old document, and those that tell of an encoding if it
 * is asked for and they are text so far. */
static size_t wanted(const struct magic_set *it, size_t count) {
    size_t all = it->params[MAGIC_PARAM_BYTES_MAX], encoded = it->params[MAGIC_PARAM_ENCODING_MAX];
    if (count > sizeof COMPOUND && memcmp(it->read, COMPOUND, sizeof COMPOUND) == 0) return all;
    bool asks_encoding = it->flags & MAGIC_MIME_ENCODING || !(it->flags & (MAGIC_MIME | MAGIC_APPLE | MAGIC_EXTENSION));
    if (!asks_encoding || count == 0 || strcmp(encoding_of(it->read, count), "binary") == 0) return count;
    return encoded < all ? encoded : all;
}

/* The number of bytes that were read, or -1. */
static ssize_t read_front(struct magic_set *it, int fd) {
    struct stat about = {0};
    fstat(fd, &about);
    size_t least = least_of(about.st_mode);
    size_t first = it->params[MAGIC_PARAM_BYTES_MAX] < FRONT ? it->params[MAGIC_PARAM_BYTES_MAX] : FRONT;
    if (!has_room(it, FRONT)) return -1;
    ssize_t count = read_up_to(it, fd, 0, first, least);
    if (count < (ssize_t)first || first < FRONT || least == SIZE_MAX) return count;
    size_t all = wanted(it, (size_t)count);
    /* A regular file says how long it is, so that no room is taken for more. */
    if (S_ISREG(about.st_mode) && (uintmax_t)about.st_size < all) all = (size_t)about.st_size;
    if (all <= (size_t)count || !has_room(it, all)) return count;
    return read_up_to(it, fd, (size_t)count, all, least);
}

/* The path is null if it does not count. */
static int say_read(struct magic_set *it, int fd, const char *shown_as, const char *path) {
    off_t place = lseek(fd, 0, SEEK_CUR);
    ssize_t count = read_front(it, fd);
    int fault = errno;
    if (place != (off_t)-1) lseek(fd, place, SEEK_SET);
    if (count < 0) {
        if (shown_as != NULL) fail(it, fault, "cannot read `%s'", shown_as);
        else fail(it, fault, "cannot read fd %d", fd);
        return -1;
    }
    /* A header's places are those of the file, which a descriptor that stands elsewhere does not read. */
    struct front front = {it->read, (size_t)count, place == 0 ? fd : -1, path};
    say_type(it, &front);
    return 0;
}

int say_descriptor(struct magic_set *it, int fd, const char *shown_as) { return say_read(it, fd, shown_as, NULL); }

/* Gives the file the times back that it had: the one that was read, whatever its path leads to by now. */
static void restore_times(int fd, const struct stat *about) {
    struct timespec times[2] = {about->st_atim, about->st_mtim};
    futimens(fd, times);
}

int say_path(struct magic_set *it, const char *path) {
    struct stat about = {0};
    int special = say_special(it, path);
    if (special != 0) return special > 0 ? 0 : -1;
    int fd;
    do
        fd = open(path, O_RDONLY | O_NONBLOCK | O_NOCTTY | O_CLOEXEC);
    while (fd < 0 && errno == EINTR);
    if (fd < 0) {
        say_unreadable(it, path);
        return 0;
    }
    bool is_known = fstat(fd, &about) == 0;
    /* The path may name something else by now. */
    if (is_known && !S_ISREG(about.st_mode)) {
        forget(it);
        special = say_kind(it, path, &about);
    }
    int answer = special < 0 ? -1 : 0;
    if (special == 0) answer = say_read(it, fd, path, it->asks_names ? path : NULL);
    if (is_known && it->flags & MAGIC_PRESERVE_ATIME) restore_times(fd, &about);
    close(fd);
    return answer;
}
