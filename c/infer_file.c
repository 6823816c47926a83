/* infer_file.h says what these calls do. Windows and POSIX have each their own way to the first bytes of a file. */
#ifndef _WIN32
#define _POSIX_C_SOURCE 200809L
#endif
#include "infer_file.h"
#include <errno.h>
#include <fcntl.h>
#include <sys/stat.h>
#ifdef _WIN32
#include <io.h>
#include <stdio.h>
#include <windows.h>
#else
#include <unistd.h>
#endif

/* Stores what is told of the first bytes. */
typedef void teller(const void *front, size_t len, void *told);

static void tell_row(const void *front, size_t len, void *row) { *(int32_t *)row = infer_position(front, len); }
static void tell_more_row(const void *front, size_t len, void *row) { *(int32_t *)row = infer_more_position(front, len); }
static void tell_all(const void *front, size_t len, void *told) { infer_tell(front, len, (struct infer_told *)told); }

/* A path, and where what it and the first bytes tell is stored. */
struct asked {
    const char *path;
    struct infer_named_answer *answer;
};

static void tell_named(const void *front, size_t len, void *told) {
    const struct asked *it = (const struct asked *)told;
    infer_named(it->path, strlen(it->path), front, len, it->answer);
}

#ifdef _WIN32

/* So many units of two bytes has a path of Windows at most, with the zero. */
enum { LONGEST_PATH = 32768 };

/* Whether this is a regular file. If not, errno says so. */
static bool is_regular(const struct _stat64 *about) {
    int kind = about->st_mode & _S_IFMT;
    if (kind == _S_IFREG) return true;
    errno = kind == _S_IFDIR ? EISDIR : ENOTSUP;
    return false;
}

/* The number of bytes that were read, or -1. */
static int read_front(int fd, unsigned char front[INFER_FRONT]) {
    int count = 0, got = 1;
    if (_lseeki64(fd, 0, SEEK_SET) < 0) return -1;
    while (count < INFER_FRONT && got > 0) {
        got = _read(fd, front + count, (unsigned)(INFER_FRONT - count));
        if (got > 0) count += got;
    }
    return got < 0 ? -1 : count;
}

static int of_fd(int fd, void *told, teller *tell) {
    unsigned char front[INFER_FRONT];
    struct _stat64 about;
    tell(NULL, 0, told);
    if (_fstat64(fd, &about) != 0 || !is_regular(&about)) return -1;
    long long stood = _lseeki64(fd, 0, SEEK_CUR);
    /* A descriptor may be one of text, whose line ends are not those of the file. */
    int mode = stood < 0 ? -1 : _setmode(fd, _O_BINARY);
    if (mode == -1) return -1;
    int count = read_front(fd, front), fault = errno;
    _setmode(fd, mode);
    if (_lseeki64(fd, stood, SEEK_SET) < 0) return -1;
    errno = fault;
    if (count < 0) return -1;
    tell(front, (size_t)count, told);
    return 0;
}

static int of_path(const char *path, void *told, teller *tell) {
    wchar_t wide[LONGEST_PATH];
    struct _stat64 about;
    tell(NULL, 0, told);
    if (MultiByteToWideChar(CP_UTF8, MB_ERR_INVALID_CHARS, path, -1, wide, LONGEST_PATH) == 0) {
        errno = GetLastError() == ERROR_INSUFFICIENT_BUFFER ? ENAMETOOLONG : EILSEQ;
        return -1;
    }
    /* A device can act as soon as it is opened. */
    if (_wstat64(wide, &about) != 0 || !is_regular(&about)) return -1;
    int fd = _wopen(wide, _O_RDONLY | _O_BINARY | _O_NOINHERIT);
    if (fd < 0) return -1;
    /* The path may name another file by now, so the descriptor is asked again. */
    int answer = of_fd(fd, told, tell), fault = errno;
    _close(fd);
    errno = fault;
    return answer;
}

#else

/* Whether this is a regular file. If not, errno says so. */
static bool is_regular(const struct stat *about) {
    if (S_ISREG(about->st_mode)) return true;
    errno = S_ISDIR(about->st_mode) ? EISDIR : ENOTSUP;
    return false;
}

/* The number of bytes that were read, or -1. */
static ssize_t read_front(int fd, unsigned char front[INFER_FRONT]) {
    size_t count = 0;
    while (count < INFER_FRONT) {
        ssize_t got = pread(fd, front + count, INFER_FRONT - count, (off_t)count);
        if (got == 0) break;
        if (got > 0)
            count += (size_t)got;
        else if (errno != EINTR)
            return -1;
    }
    return (ssize_t)count;
}

/* Opening a FIFO waits for a writer unless O_NONBLOCK is given. */
static int open_front(const char *path) {
    int fd;
    do
        fd = open(path, O_RDONLY | O_NONBLOCK | O_NOCTTY | O_CLOEXEC);
    while (fd < 0 && errno == EINTR);
    return fd;
}

static int of_fd(int fd, void *told, teller *tell) {
    unsigned char front[INFER_FRONT];
    struct stat about;
    tell(NULL, 0, told);
    if (fstat(fd, &about) != 0 || !is_regular(&about)) return -1;
    ssize_t count = read_front(fd, front);
    if (count < 0) return -1;
    tell(front, (size_t)count, told);
    return 0;
}

static int of_path(const char *path, void *told, teller *tell) {
    struct stat about;
    tell(NULL, 0, told);
    /* A device can act as soon as it is opened: a tape winds back, a watchdog starts. */
    if (stat(path, &about) != 0 || !is_regular(&about)) return -1;
    int fd = open_front(path);
    if (fd < 0) return -1;
    /* The path may name another file by now, so the descriptor is asked again. */
    int answer = of_fd(fd, told, tell), fault = errno;
    close(fd);
    errno = fault;
    return answer;
}

#endif

int infer_path(const char *path, int32_t *row) { return of_path(path, row, tell_row); }
int infer_fd(int fd, int32_t *row) { return of_fd(fd, row, tell_row); }
int infer_more_path(const char *path, int32_t *row) { return of_path(path, row, tell_more_row); }
int infer_more_fd(int fd, int32_t *row) { return of_fd(fd, row, tell_more_row); }
int infer_tell_path(const char *path, struct infer_told *told) { return of_path(path, told, tell_all); }

int infer_named_path(const char *path, struct infer_named_answer *answer) {
    struct asked asked = {path, answer};
    return of_path(path, &asked, tell_named);
}
