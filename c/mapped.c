/* Prints the MIME type of each file in the arguments, by all of its bytes: the file is mapped into memory, and of a
 * large file only the pages that decide are read. Map only files that nobody shortens meanwhile: to look at a page that
 * is gone ends the program with SIGBUS. */
#define _POSIX_C_SOURCE 200809L
#include "infer.h"
#include <errno.h>
#include <fcntl.h>
#include <stdio.h>
#include <string.h>
#include <sys/mman.h>
#include <sys/stat.h>
#include <unistd.h>

/* Maps the regular file `fd`, and answers whether that was done. A file without bytes cannot be mapped: it is null. */
static bool map(int fd, const void **bytes, size_t *len) {
    struct stat about;
    if (fstat(fd, &about) != 0) return false;
    if (!S_ISREG(about.st_mode)) return errno = EINVAL, false;
    if ((uintmax_t)about.st_size > SIZE_MAX) return errno = EFBIG, false;
    *bytes = NULL;
    *len = (size_t)about.st_size;
    if (*len == 0) return true;
    void *mapped = mmap(NULL, *len, PROT_READ, MAP_PRIVATE, fd, 0);
    if (mapped == MAP_FAILED) return false;
    *bytes = mapped;
    return true;
}

static bool print_type(const char *path) {
    const void *bytes;
    size_t len;
    /* A pipe without a writer would hold the open back. */
    int fd = open(path, O_RDONLY | O_NONBLOCK | O_NOCTTY | O_CLOEXEC);
    if (fd < 0) return false;
    bool is_mapped = map(fd, &bytes, &len);
    int why = errno;
    close(fd);
    errno = why;
    if (!is_mapped) return false;
    const char *mime_type = infer_mime_type_text(infer_position(bytes, len));
    if (len) munmap((void *)(uintptr_t)bytes, len);
    return printf("%s: %s\n", path, *mime_type ? mime_type : "unknown") >= 0;
}

int main(int argc, char **argv) {
    int status = 0;
    for (int i = 1; i < argc; i++)
        if (!print_type(argv[i])) {
            fprintf(stderr, "%s: %s\n", argv[i], strerror(errno));
            status = 1;
        }
    return fflush(stdout) != 0 ? 1 : status;
}
