/* Compares what infer_path, infer_fd and those of the wider answer say of files of each kind with constants, and counts the differences. They are
 * linked with -Wl,--wrap=open,--wrap=pread, so that opening and reading are interrupted and give a few bytes at a time.
 * usage: files FOLDER, an empty one. */
#define _GNU_SOURCE
#include "infer_file.h"
#include <errno.h>
#include <fcntl.h>
#include <stdarg.h>
#include <stdio.h>
#include <stdlib.h>
#include <string.h>
#include <sys/resource.h>
#include <sys/socket.h>
#include <sys/stat.h>
#include <sys/un.h>
#include <unistd.h>

static int compared, differing, interrupted;
static enum { STAYS, GOES, IS_FIFO, IS_FOLDER } next; /* what becomes of a file right before it is opened */

int __real_open(const char *path, int flags, ...);
ssize_t __real_pread(int fd, void *bytes, size_t size, off_t place);

/* Every other call is interrupted. */
int __wrap_open(const char *path, int flags, ...) {
    static bool is_next;
    is_next = !is_next;
    if (is_next && ++interrupted) return errno = EINTR, -1;
    if (next != STAYS && unlink(path) != 0) return -1;
    if (next == IS_FIFO && mkfifo(path, 0600) != 0) return -1;
    if (next == IS_FOLDER && mkdir(path, 0700) != 0) return -1;
    return __real_open(path, flags);
}

/* Every other call is interrupted, and the rest give seven bytes at most. */
ssize_t __wrap_pread(int fd, void *bytes, size_t size, off_t place) {
    static bool is_next;
    is_next = !is_next;
    if (is_next && ++interrupted) return errno = EINTR, -1;
    return __real_pread(fd, bytes, size < 7 ? size : 7, place);
}

static void same(const char *what, long got, long wanted) {
    compared++;
    if (got != wanted) {
        differing++;
        printf("%s: %ld in place of %ld\n", what, got, wanted);
    }
}

static int32_t jpeg(void) { return infer_position("\xFF\xD8\xFF", 3); }

/* The row of what was answered, or the fault's number below 0. */
static long told(int answer, int32_t row, int fault) {
    same("the answer", answer, fault ? -1 : 0);
    same("the row of a fault", fault ? row : -1, -1);
    return fault ? -fault - 1 : row;
}

static void path_by(int ask(const char *, int32_t *), const char *path, long wanted) {
    int32_t row = 99;
    errno = 0;
    int answer = ask(path, &row);
    same(path, told(answer, row, answer ? errno : 0), wanted);
}

static void fd_by(int ask(int, int32_t *), const char *what, int fd, long wanted) {
    int32_t row = 99;
    errno = 0;
    int answer = ask(fd, &row);
    same(what, told(answer, row, answer ? errno : 0), wanted);
}

static void path_is(const char *path, long wanted) { path_by(infer_path, path, wanted); }
static void fd_is(const char *what, int fd, long wanted) { fd_by(infer_fd, what, fd, wanted); }

#define FAULT(number) (-(number) - 1)

static void write_file(const char *path, const char *front, size_t size, off_t length) {
    int fd = __real_open(path, O_WRONLY | O_CREAT | O_TRUNC, 0600);
    if (fd < 0 || write(fd, front, size) != (ssize_t)size || ftruncate(fd, length) != 0) perror(path), exit(2);
    close(fd);
}

static void regular_files(void) {
    static char late[INFER_FRONT + 3], spaces[INFER_FRONT + 3];
    memset(late, ' ', sizeof late);
    memcpy(late + INFER_FRONT - 3, "<p>", 3);
    memset(spaces, ' ', sizeof spaces);
    memcpy(spaces + INFER_FRONT - 2, "<p>", 3);
    write_file("photo", "\xFF\xD8\xFF\xAA", 4, 4);
    write_file("sparse", "\xFF\xD8\xFF", 3, (off_t)1 << 33);
    write_file("empty", "", 0, 0);
    write_file("late", late, sizeof late, sizeof late);
    write_file("too late", spaces, sizeof spaces, sizeof spaces);
    path_is("photo", jpeg());
    path_is("./photo", jpeg());
    path_is("sparse", jpeg());
    path_is("empty", -1);
    path_is("late", infer_position(late, INFER_FRONT));
    path_is("too late", infer_position(spaces, INFER_FRONT));
    path_is("/proc/self/status", -1);
}

static void other_kinds(void) {
    struct sockaddr_un name = {.sun_family = AF_UNIX, .sun_path = "socket"};
    int listening = socket(AF_UNIX, SOCK_STREAM, 0);
    if (mkdir("folder", 0700) || mkfifo("fifo", 0600) || bind(listening, (struct sockaddr *)&name, sizeof name)) perror("files"), exit(2);
    if (symlink("fifo", "to a fifo") || symlink("photo", "to a photo") || symlink("loop", "loop") || symlink("none", "to nothing")) perror("files"), exit(2);
    path_is("folder", FAULT(EISDIR));
    path_is("/", FAULT(EISDIR));
    path_is("fifo", FAULT(ENOTSUP));
    path_is("to a fifo", FAULT(ENOTSUP));
    path_is("socket", FAULT(ENOTSUP));
    path_is("/dev/zero", FAULT(ENOTSUP));
    path_is("/dev/tty", FAULT(ENOTSUP));
    path_is("to a photo", jpeg());
    path_is("loop", FAULT(ELOOP));
    path_is("to nothing", FAULT(ENOENT));
    close(listening);
}

static void faults(void) {
    char name[5000];
    memset(name, 'a', sizeof name - 1);
    name[sizeof name - 1] = 0;
    path_is("none", FAULT(ENOENT));
    path_is("", FAULT(ENOENT));
    path_is("photo/", FAULT(ENOTDIR));
    path_is("photo/more", FAULT(ENOTDIR));
    path_is(name, FAULT(ENAMETOOLONG));
    path_is(name + sizeof name - 257, FAULT(ENAMETOOLONG));
    path_is(name + sizeof name - 256, FAULT(ENOENT));
    path_is("/proc/self/mem", FAULT(EIO));
    write_file("gone", "\xFF\xD8\xFF", 3, 3);
    path_is("gone", jpeg());
    unlink("gone");
    path_is("gone", FAULT(ENOENT));
}

/* The superuser may read all files, and so another user is taken. */
static void forbidden(void) {
    bool is_superuser = geteuid() == 0;
    if (is_superuser && (seteuid(65534) != 0 || seteuid(0) != 0)) {
        puts("left out, since there is no other user to take: files that may not be read");
        return;
    }
    write_file("secret", "\xFF\xD8\xFF", 3, 3);
    mkdir("shut", 0700);
    write_file("shut/photo", "\xFF\xD8\xFF", 3, 3);
    chmod("secret", 0);
    chmod("shut", 0);
    chmod(".", 0755);
    if (is_superuser && seteuid(65534) != 0) perror("files"), exit(2);
    path_is("secret", FAULT(EACCES));
    path_is("shut/photo", FAULT(EACCES));
    if (is_superuser && seteuid(0) != 0) perror("files"), exit(2);
    chmod("shut", 0700);
}

static void no_descriptors(void) {
    struct rlimit old, few;
    getrlimit(RLIMIT_NOFILE, &old);
    few = old;
    few.rlim_cur = 0;
    setrlimit(RLIMIT_NOFILE, &few);
    path_is("photo", FAULT(EMFILE));
    setrlimit(RLIMIT_NOFILE, &old);
}

static void swapped(const char *path, int becomes, long wanted) {
    write_file(path, "\xFF\xD8\xFF", 3, 3);
    next = becomes;
    path_is(path, wanted);
    next = STAYS;
}

/* The wider answer, of files that the built-in one does not tell, and the same faults. */
static void wider(void) {
    static const char svg[] = "<svg></svg>";
    const int32_t row = infer_more_position(svg, sizeof svg - 1);
    write_file("drawing", svg, sizeof svg - 1, sizeof svg - 1);
    same("SVG is of a further row", row >= (int32_t)infer_row_count(), true);
    path_is("drawing", -1);
    path_by(infer_more_path, "drawing", row);
    path_by(infer_more_path, "photo", jpeg());
    path_by(infer_more_path, "empty", -1);
    path_by(infer_more_path, "none", FAULT(ENOENT));
    path_by(infer_more_path, "folder", FAULT(EISDIR));
    path_by(infer_more_path, "fifo", FAULT(ENOTSUP));
    path_by(infer_more_path, "/dev/zero", FAULT(ENOTSUP));
    path_by(infer_more_path, "/proc/self/mem", FAULT(EIO));
    int drawing = __real_open("drawing", O_RDONLY), written = __real_open("drawing", O_WRONLY);
    lseek(drawing, 4, SEEK_SET);
    fd_is("a drawing", drawing, -1);
    fd_by(infer_more_fd, "a drawing", drawing, row);
    same("its place", lseek(drawing, 0, SEEK_CUR), 4);
    fd_by(infer_more_fd, "a drawing open for writing", written, FAULT(EBADF));
    close(written);
    close(drawing);
    fd_by(infer_more_fd, "a closed descriptor", drawing, FAULT(EBADF));
}

static void is_told(const char *path, int wanted, const char *extension, const char *encoding, bool is_decided) {
    struct infer_told told;
    errno = 0;
    int answer = infer_tell_path(path, &told), fault = errno;
    same(path, answer ? FAULT(fault) : 0, wanted);
    same(path, strcmp(told.extension, extension) == 0 && strcmp(told.encoding, encoding) == 0 && told.is_decided == is_decided, true);
    same(path, told.class_code, infer_class(told.row));
    same(path, told.mime_type == infer_mime_type_text(told.row), true);
}

/* All that is told at once, of files, and of pieces as of the whole. */
static void all_at_once(void) {
    is_told("drawing", 0, "svg", "us-ascii", false);
    is_told("sparse", 0, "jpg", "", true);
    is_told("empty", 0, "", "", false);
    is_told("none", FAULT(ENOENT), "", "", false);
    is_told("folder", FAULT(EISDIR), "", "", false);
    is_told("fifo", FAULT(ENOTSUP), "", "", false);
    static char stream[20000] = "\xFF\xD8\xFF\xE0";
    static const size_t sizes[] = {1, 7, 1000, 8191, 8192, 8193, sizeof stream};
    for (size_t i = 0; i < sizeof sizes / sizeof *sizes; i++) {
        struct infer_sniffer it = {0};
        bool is_final = false;
        for (size_t at = 0; at < sizeof stream; at += sizes[i]) {
            size_t size = sizeof stream - at < sizes[i] ? sizeof stream - at : sizes[i];
            infer_sniffer_push(&it, stream + at, size);
            size_t kept = at + size < INFER_FRONT ? at + size : INFER_FRONT;
            infer_verdict(stream, kept, &is_final);
            if (it.size != kept || it.is_final != is_final || memcmp(it.kept, stream, kept) != 0) same("a piece", (long)at, -1);
        }
        infer_sniffer_push(&it, NULL, 0);
        same("the type of pieces", infer_position(it.kept, it.size), jpeg());
        same("its verdict", it.is_final, true);
    }
}

static void is_named(const char *path, int wanted, int32_t standing, const char *mime_type) {
    struct infer_named_answer got;
    memset(&got, 0xA5, sizeof got);
    errno = 0;
    int answer = infer_named_path(path, &got), fault = errno;
    same(path, answer ? FAULT(fault) : 0, wanted);
    same(path, got.standing, standing);
    same(path, strcmp(got.told.mime_type, mime_type), 0);
}

/* Names and bytes of files. Of what cannot be read the name alone tells. */
static void named(void) {
    write_file("a.py", "import os\n", 10, 10);
    write_file("a.png", "\xFF\xD8\xFF", 3, 3);
    write_file("empty.py", "", 0, 0);
    is_named("a.py", 0, INFER_NAME_REFINES, "text/x-python");
    is_named("./a.py", 0, INFER_NAME_REFINES, "text/x-python");
    is_named("a.png", 0, INFER_CONTRADICTS, "image/jpeg");
    is_named("empty.py", 0, INFER_NAME_ALONE, "text/x-python");
    is_named("sparse", 0, INFER_BYTES_ALONE, "image/jpeg");
    is_named("none.py", FAULT(ENOENT), INFER_NAME_ALONE, "text/x-python");
    is_named("folder", FAULT(EISDIR), INFER_NOTHING, "");
    is_named("fifo", FAULT(ENOTSUP), INFER_NOTHING, "");
}

static void descriptors(void) {
    int ends[2], folder = __real_open("folder", O_RDONLY), photo = __real_open("photo", O_RDWR);
    int written = __real_open("photo", O_WRONLY), named = __real_open("photo", O_PATH), zero = __real_open("/dev/zero", O_RDONLY);
    if (pipe(ends) != 0) perror("files"), exit(2);
    lseek(photo, 2, SEEK_SET);
    fd_is("a photo", photo, jpeg());
    same("its place", lseek(photo, 0, SEEK_CUR), 2);
    lseek(photo, 0, SEEK_END);
    fd_is("a photo at its end", photo, jpeg());
    same("its place", lseek(photo, 0, SEEK_CUR), 4);
    unlink("photo");
    fd_is("a removed photo", photo, jpeg());
    fd_is("a folder", folder, FAULT(EISDIR));
    fd_is("a pipe", ends[0], FAULT(ENOTSUP));
    fd_is("a device", zero, FAULT(ENOTSUP));
    fd_is("a file open for writing", written, FAULT(EBADF));
    fd_is("a file open for nothing", named, FAULT(EBADF));
    for (int fd = 3; fd < 10; fd++)
        close(fd);
    fd_is("a closed descriptor", photo, FAULT(EBADF));
    fd_is("no descriptor", -1, FAULT(EBADF));
}

int main(int argc, char **argv) {
    if (argc != 2 || chdir(argv[1]) != 0) return perror("usage: files FOLDER"), 2;
    /* A call that waits ends the program by a signal. */
    alarm(600);
    int first = dup(0);
    close(first);
    regular_files();
    other_kinds();
    faults();
    forbidden();
    no_descriptors();
    swapped("goes", GOES, FAULT(ENOENT));
    swapped("becomes a fifo", IS_FIFO, FAULT(ENOTSUP));
    swapped("becomes a folder", IS_FOLDER, FAULT(EISDIR));
    wider();
    all_at_once();
    named();
    int left = dup(0);
    close(left);
    same("descriptors left open", left, first);
    descriptors();
    same("calls were interrupted", interrupted > 1000, true);
    printf("%d answers about files compared, %d differ\n", compared, differing);
    return differing != 0;
}
