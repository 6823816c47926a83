/* Which types are asked: those of the library, and before them those of a text in infer's notation. */
#define _POSIX_C_SOURCE 200809L
#include "magic_set.h"
#include <errno.h>
#include <stdio.h>
#include <stdlib.h>
#include <string.h>

/* The most that all texts of types have together. */
#define TEXT_MAX ((size_t)1 << 20)

/* The first four bytes of a compiled magic(5) file, in either order. */
static const unsigned char COMPILED[2][4] = {{0x1C, 0x04, 0x1E, 0xF1}, {0xF1, 0x1E, 0x04, 0x1C}};

/* Where distributions keep libmagic's own database. The library's rows are in its place. */
static const char *const DEFAULTS[] = {
    "/etc/magic", "/usr/share/misc/magic", "/usr/share/misc/magic.mgc", "/usr/share/file/magic", "/usr/share/file/magic.mgc",
    "/usr/lib/file/magic", "/usr/lib/file/magic.mgc", "/usr/share/magic", "/usr/share/magic.mgc",
};

const char *default_paths(void) { return "/etc/magic:/usr/share/misc/magic"; }

static bool is_default(const char *path, size_t len) {
    for (size_t at = 0; at < sizeof DEFAULTS / sizeof DEFAULTS[0]; at++)
        if (strlen(DEFAULTS[at]) == len && memcmp(DEFAULTS[at], path, len) == 0) return true;
    return false;
}

/* Adds the text to the types, after a line's end. */
static bool add_text(struct magic_set *it, const char *text, size_t len) {
    char *both = realloc(it->types, it->types_len + len + 1);
    if (both == NULL) return false;
    memcpy(both + it->types_len, text, len);
    both[it->types_len + len] = '\n';
    it->types = both;
    it->types_len += len + 1;
    return true;
}

/* Takes a text that came from there. */
static int take_text(struct magic_set *it, const char *from, const char *text, size_t len) {
    char reason[INFER_TEXT_SIZE];
    size_t line, column;
    if (len >= sizeof COMPILED[0] && (memcmp(text, COMPILED[0], sizeof COMPILED[0]) == 0 || memcmp(text, COMPILED[1], sizeof COMPILED[1]) == 0)) {
        fail(it, 0, "%s is a compiled magic(5) file, which is not taken: types are taken in the notation of infer", from);
        return -1;
    }
    if (len > TEXT_MAX || it->types_len > TEXT_MAX - len) {
        fail(it, EFBIG, "the types of `%s' are too long", from);
        return -1;
    }
    if (infer_types_check(text, len, &line, &column, reason, sizeof reason) != 0) {
        fail(it, 0, "%s, line %zu, column %zu: %s: types are taken in the notation of infer, and a magic(5) file is not", from, line, column, reason);
        return -1;
    }
    if (add_text(it, text, len)) return 0;
    fail(it, ENOMEM, "cannot keep the types of %s", from);
    return -1;
}

/* 1 if it was taken, 0 if there is no such file, and -1 if it could not be taken. */
static int take_file(struct magic_set *it, const char *path) {
    FILE *file = fopen(path, "rbe");
    if (file == NULL) return 0;
    char *text = malloc(TEXT_MAX + 1);
    size_t len = text == NULL ? 0 : fread(text, 1, TEXT_MAX + 1, file);
    int answer = -1;
    if (text == NULL) fail(it, ENOMEM, "cannot keep the types of %s", path);
    else if (ferror(file)) fail(it, errno, "cannot read `%s'", path);
    else if (take_text(it, path, text, len) == 0) answer = 1;
    free(text);
    fclose(file);
    return answer;
}

/* The same of the first path of a list, `len` bytes long. */
static int take_path(struct magic_set *it, const char *paths, size_t len) {
    if (len == 0 || is_default(paths, len)) return len != 0;
    char *path = strndup(paths, len);
    if (path == NULL) {
        fail(it, ENOMEM, "cannot keep a path");
        return -1;
    }
    int answer = take_file(it, path);
    free(path);
    return answer;
}

static void begin_load(struct magic_set *it) {
    forget(it);
    free(it->types);
    it->types = NULL;
    it->types_len = 0;
    it->is_loaded = false;
}

int load_types(struct magic_set *it, const char *paths) {
    begin_load(it);
    if (paths == NULL) paths = getenv("MAGIC");
    if (paths == NULL) paths = default_paths();
    while (*paths != '\0') {
        size_t len = strcspn(paths, ":");
        int taken = take_path(it, paths, len);
        if (taken < 0) {
            it->is_loaded = false;
            return -1;
        }
        if (taken > 0) it->is_loaded = true;
        paths += len + (paths[len] == ':');
    }
    /* In libmagic's words, and without a number of errno, as there. */
    if (!it->is_loaded) fail(it, 0, "could not find any valid magic files!");
    return it->is_loaded ? 0 : -1;
}

int load_texts(struct magic_set *it, void **texts, size_t *sizes, size_t count) {
    begin_load(it);
    for (size_t at = 0; at < count; at++) {
        char from[48];
        snprintf(from, sizeof from, "buffer %zu", at + 1);
        if (take_text(it, from, texts[at], sizes[at]) != 0) return -1;
    }
    it->is_loaded = true;
    return 0;
}
