/* The functions of libmagic, by its own names and with its own meaning: magic.h and libmagic(3) say what each does. */
#include "magic_set.h"
#include <errno.h>
#include <stdio.h>
#include <stdlib.h>
#include <string.h>

typedef struct magic_set *magic_t;

magic_t magic_open(int flags);
void magic_close(magic_t it);
const char *magic_getpath(const char *path, int action);
const char *magic_file(magic_t it, const char *path);
const char *magic_descriptor(magic_t it, int fd);
const char *magic_buffer(magic_t it, const void *bytes, size_t len);
const char *magic_error(magic_t it);
int magic_errno(magic_t it);
int magic_getflags(magic_t it);
int magic_setflags(magic_t it, int flags);
int magic_version(void);
int magic_load(magic_t it, const char *paths);
int magic_load_buffers(magic_t it, void **texts, size_t *sizes, size_t count);
int magic_compile(magic_t it, const char *paths);
int magic_check(magic_t it, const char *paths);
int magic_list(magic_t it, const char *paths);
int magic_setparam(magic_t it, int param, const void *value);
int magic_getparam(magic_t it, int param, void *value);

static const size_t DEFAULTS[MAGIC_PARAMS] = {50, 50, 2048, 32768, 256, 8192, (size_t)7 << 20, (size_t)64 << 10};

magic_t magic_open(int flags) {
    magic_t it = calloc(1, sizeof *it);
    if (it == NULL) return NULL;
    it->flags = flags;
    const char *names = getenv("INFER_LIBMAGIC_NAMES");
    it->asks_names = names != NULL && strcmp(names, "1") == 0;
    memcpy(it->params, DEFAULTS, sizeof it->params);
    return it;
}

void magic_close(magic_t it) {
    if (it == NULL) return;
    free(it->types);
    free(it->read);
    free(it);
}

const char *magic_getpath(const char *path, int action) {
    (void)action;
    if (path == NULL) path = getenv("MAGIC");
    return path != NULL ? path : default_paths();
}

/* Whether there is something to ask. */
static bool begin(magic_t it) {
    if (it == NULL) return false;
    forget(it);
    if (!it->is_loaded) fail(it, 0, "no magic files loaded");
    return it->is_loaded;
}

const char *magic_file(magic_t it, const char *path) {
    if (!begin(it)) return NULL;
    int answer = path == NULL ? say_descriptor(it, 0, "/dev/stdin") : say_path(it, path);
    return answer == 0 ? answer_of(it) : NULL;
}

const char *magic_descriptor(magic_t it, int fd) {
    if (!begin(it)) return NULL;
    /* libmagic takes -1 for a file without contents. */
    if (fd == -1) say_type(it, &(struct front){NULL, 0, -1, NULL});
    else if (say_descriptor(it, fd, fd == 0 ? "/dev/stdin" : NULL) != 0) return NULL;
    return answer_of(it);
}

const char *magic_buffer(magic_t it, const void *bytes, size_t len) {
    if (!begin(it)) return NULL;
    say_type(it, &(struct front){bytes, len, -1, NULL});
    return answer_of(it);
}

const char *magic_error(magic_t it) {
    if (it == NULL) return "Magic database is not open";
    return it->has_fault ? it->said : NULL;
}

int magic_errno(magic_t it) {
    return it == NULL ? EINVAL : it->fault;
}

int magic_getflags(magic_t it) {
    return it == NULL ? -1 : it->flags;
}

int magic_setflags(magic_t it, int flags) {
    if (it == NULL) return -1;
    it->flags = flags;
    return 0;
}

int magic_version(void) {
    return MAGIC_VERSION;
}

int magic_load(magic_t it, const char *paths) {
    return it == NULL ? -1 : load_types(it, paths);
}

int magic_load_buffers(magic_t it, void **texts, size_t *sizes, size_t count) {
    return it == NULL ? -1 : load_texts(it, texts, sizes, count);
}

int magic_compile(magic_t it, const char *paths) {
    if (it == NULL) return -1;
    forget(it);
    fail(it, 0, "%s: nothing is compiled: types in the notation of infer are read as they are", magic_getpath(paths, 1));
    return -1;
}

/* A handle that is checked or listed keeps its own types. */
int magic_check(magic_t it, const char *paths) {
    magic_t other = it == NULL ? NULL : magic_open(0);
    if (other == NULL) return -1;
    int answer = load_types(other, paths);
    forget(it);
    if (answer != 0) {
        fail(it, 0, "%s", other->said);
        it->fault = other->fault;
    }
    magic_close(other);
    return answer;
}

int magic_list(magic_t it, const char *paths) {
    if (magic_check(it, paths) != 0) return -1;
    for (int32_t row = 0; row < (int32_t)infer_more_row_count(); row++) {
        struct name name = name_of_row(row);
        printf("%s [%s]\n", name.description, name.mime_type);
    }
    return 0;
}

int magic_setparam(magic_t it, int param, const void *value) {
    if (it == NULL) return -1;
    if (param < 0 || param >= MAGIC_PARAMS || value == NULL) {
        errno = EINVAL;
        return -1;
    }
    size_t number = *(const size_t *)value;
    /* All but the last two are numbers of 16 bits. */
    it->params[param] = param < MAGIC_PARAM_BYTES_MAX ? (uint16_t)number : number;
    return 0;
}

int magic_getparam(magic_t it, int param, void *value) {
    if (it == NULL) return -1;
    if (param < 0 || param >= MAGIC_PARAMS || value == NULL) {
        errno = EINVAL;
        return -1;
    }
    *(size_t *)value = it->params[param];
    return 0;
}
