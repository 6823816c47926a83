/* What the parts of this libmagic.so.1 know of each other. Each file answers one question, and all that a program hands
 * over or is told stands in its handle: nothing else is kept, so that each thread may have a handle of its own. */
#ifndef INFER_MAGIC_SET_H
#define INFER_MAGIC_SET_H

#include "infer.h"
#include <sys/stat.h>
#include <sys/types.h>

/* The numbers of libmagic's interface, as its header magic.h has them. */
enum {
    MAGIC_VERSION = 544,
    MAGIC_SYMLINK = 0x0000002,
    MAGIC_DEVICES = 0x0000008,
    MAGIC_MIME_TYPE = 0x0000010,
    MAGIC_PRESERVE_ATIME = 0x0000080,
    MAGIC_RAW = 0x0000100,
    MAGIC_ERROR = 0x0000200,
    MAGIC_MIME_ENCODING = 0x0000400,
    MAGIC_MIME = MAGIC_MIME_TYPE | MAGIC_MIME_ENCODING,
    MAGIC_APPLE = 0x0000800,
    MAGIC_NO_CHECK_TAR = 0x0002000,
    MAGIC_NO_CHECK_SOFT = 0x0004000,
    MAGIC_NO_CHECK_ELF = 0x0010000,
    MAGIC_NO_CHECK_TEXT = 0x0020000,
    MAGIC_NO_CHECK_CDF = 0x0040000,
    MAGIC_NO_CHECK_ENCODING = 0x0200000,
    MAGIC_NO_CHECK_JSON = 0x0400000,
    MAGIC_EXTENSION = 0x1000000,
    MAGIC_PARAM_BYTES_MAX = 6,
    MAGIC_PARAM_ENCODING_MAX = 7,
    /* How many parameters there are. */
    MAGIC_PARAMS = 8
};

/* Room for what is said: a path of 4096 bytes twice, and words. */
#define SAID_ROOM 12288
/* A byte that is shown as \ooo. */
#define SHOWN_PER_BYTE 4

struct magic_set {
    int flags;
    size_t params[MAGIC_PARAMS];
    /* Whether the path of a file counts, beside its bytes. */
    bool asks_names;
    bool is_loaded;
    /* Types of the caller's own, in infer's notation. */
    char *types;
    size_t types_len;
    /* Whether the last call failed, and the number of errno that says why, or 0. */
    bool has_fault;
    int fault;
    /* The answer or the reason, whose length is `said_len`, and it as it is shown. */
    size_t said_len;
    char said[SAID_ROOM], shown[SHOWN_PER_BYTE * SAID_ROOM];
    /* What was read of a file. */
    unsigned char *read;
    size_t room;
};

/* Some bytes, the file that they begin, or -1, and its path if that counts, or null. */
struct front {
    const unsigned char *bytes;
    size_t len;
    int fd;
    const char *path;
};

/* What libmagic calls a type. */
enum words { OF_DATA, OF_TEXT, OF_SCRIPT, OF_PLAIN_TEXT, OF_ELF };
struct name {
    const char *mime_type, *extensions, *description;
    enum words words;
};

/* said.c */
void forget(struct magic_set *it);
void say(struct magic_set *it, const char *format, ...) __attribute__((format(printf, 2, 3)));
void fail(struct magic_set *it, int fault, const char *format, ...) __attribute__((format(printf, 3, 4)));
const char *reason_of(int fault, char *room, size_t size);
const char *answer_of(struct magic_set *it);

/* encoding.c: by its IANA name, or as libmagic calls what has none: iso-8859-1, unknown-8bit, binary. */
const char *encoding_of(const unsigned char *bytes, size_t len);
/* What descriptions call that encoding. */
const char *words_of_encoding(const char *encoding);

/* elf.c: the name of an ELF file by its header, and of a shared object by its dynamic section. */
struct name name_of_elf(const struct front *front, bool asks_dynamic);

/* names.c: the name of the row's type, and the row that has both texts, or -1. */
struct name name_of_row(int32_t row);
int32_t row_with(const char *mime_type, const char *extension);

/* type.c: says what the bytes are. */
void say_type(struct magic_set *it, const struct front *front);

/* special.c: says what is no regular file with contents. 1 if it did, 0 if the file is to be read, -1 if it failed. */
int say_special(struct magic_set *it, const char *path);
/* The same of what was found there. */
int say_kind(struct magic_set *it, const char *path, const struct stat *about);
/* Says how a file that cannot be opened may be used. */
void say_unreadable(struct magic_set *it, const char *path);

/* file.c: 0 if all went well, and -1 if not. */
int say_path(struct magic_set *it, const char *path);
int say_descriptor(struct magic_set *it, int fd, const char *shown_as);

/* load.c: takes the types that the paths name, or keeps none if it is null. 0, or -1 if they could not be taken. */
int load_types(struct magic_set *it, const char *paths);
int load_texts(struct magic_set *it, void **texts, size_t *sizes, size_t count);
/* The paths that stand for what the library knows. */
const char *default_paths(void);

#endif
