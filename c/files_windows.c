/* Compares what infer_path and infer_fd say of files on Windows with constants, and counts the differences.
 * usage: files_windows, in an empty folder that is its own */
#include "infer_file.h"
#include <direct.h>
#include <errno.h>
#include <fcntl.h>
#include <io.h>
#include <stdio.h>
#include <string.h>
#include <sys/stat.h>

static int compared, differing;

static void wants(const char *what, bool holds) {
    compared++;
    if (holds) return;
    differing++;
    printf("files_windows: %s, errno %d\n", what, errno);
}

/* Writes a file of those bytes and zeros after them. */
static void write_file(const wchar_t *name, const char *front, unsigned front_len, unsigned zeros) {
    static const char none[20000];
    int fd = _wopen(name, _O_WRONLY | _O_CREAT | _O_TRUNC | _O_BINARY, _S_IREAD | _S_IWRITE);
    wants("a file is written", fd >= 0 && _write(fd, front, front_len) == (int)front_len && _write(fd, none, zeros) == (int)zeros);
    _close(fd);
}

static bool is_told(const char *path, const char *mime_type) {
    int32_t row = 7;
    return infer_path(path, &row) == 0 && strcmp(infer_mime_type_text(row), mime_type) == 0;
}

static bool is_refused(const char *path, int fault) {
    int32_t row = 7;
    errno = 0;
    return infer_path(path, &row) == -1 && row == -1 && errno == fault;
}

static void ask_wider(void) {
    int32_t row = 7;
    wants("a drawing", infer_more_path("drawing", &row) == 0 && strcmp(infer_mime_type_text(row), "image/svg+xml") == 0 && is_told("drawing", ""));
    struct infer_told told;
    wants("all of it", infer_tell_path("drawing", &told) == 0 && told.row == row && strcmp(told.encoding, "us-ascii") == 0 && !told.is_decided);
    wants("no drawing", infer_more_path("none", &row) == -1 && row == -1 && errno == ENOENT);
    int fd = _open("drawing", _O_RDONLY | _O_TEXT);
    wants("its descriptor", infer_more_fd(fd, &row) == 0 && strcmp(infer_mime_type_text(row), "image/svg+xml") == 0);
    _close(fd);
}

static void ask_descriptor(void) {
    /* Of text, where a line ends by two bytes and a file by one of them. */
    int32_t row = 7;
    char rest[4] = "";
    int fd = _open("lines", _O_RDONLY | _O_TEXT);
    wants("a descriptor", infer_fd(fd, &row) == 0 && strcmp(infer_mime_type_text(row), "image/png") == 0);
    wants("it stands where it stood, and is one of text", _read(fd, rest, 3) == 3 && memcmp(rest, "\x89PN", 3) == 0);
    wants("it stands further on", infer_fd(fd, &row) == 0 && _read(fd, rest, 1) == 1 && rest[0] == 'G');
    _close(fd);
}

int main(void) {
    static char longest[200000];
    memset(longest, 'a', sizeof longest - 1);
    write_file(L"photo", "\377\330\377\340", 4, 0);
    write_file(L"large", "\377\330\377\340", 4, 20000);
    write_file(L"empty", "", 0, 0);
    write_file(L"lines", "\x89PNG\r\n\x1A\n", 8, 100);
    write_file(L"gr\u00FC\u00DFe \u20AC \U0001F600", "GIF89a", 6, 0);
    wants("a photo", is_told("photo", "image/jpeg") && is_told(".\\photo", "image/jpeg") && is_told("./photo", "image/jpeg"));
    wants("a large file", is_told("large", "image/jpeg"));
    wants("an empty file", is_told("empty", ""));
    wants("a file of lines", is_told("lines", "image/png"));
    wants("a name that is not of ASCII", is_told("gr\xC3\xBC\xC3\x9F" "e \xE2\x82\xAC \xF0\x9F\x98\x80", "image/gif"));
    wants("no file", is_refused("none", ENOENT));
    wants("no name", is_refused("", ENOENT));
    wants("a folder", _mkdir("folder") == 0 && is_refused("folder", EISDIR));
    wants("a name that is no UTF-8", is_refused("\xFF", EILSEQ));
    wants("a name that is too long", is_refused(longest, ENAMETOOLONG));
    write_file(L"drawing", "<svg></svg>", 11, 0);
    ask_wider();
    ask_descriptor();
    printf("%d answers about files compared, %d differ\n", compared, differing);
    return differing != 0;
}
