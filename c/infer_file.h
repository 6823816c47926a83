/* The type of a file by its path or its descriptor, for programs on POSIX and Windows. The code is C, in infer_file.c,
 * and not part of the proved library: an installed tree has it as libinfer_file.a, and pkg-config and CMake name both.
 * On Windows a path is in UTF-8, and EILSEQ means that it is not. */
#ifndef INFER_FILE_H
#define INFER_FILE_H

#include "infer.h"
#include <string.h>

#ifdef __cplusplus
extern "C" {
#endif

/* At most so many bytes of a file are read. */
#define INFER_FRONT 8192

/* The type of a regular file by its first INFER_FRONT bytes, or by all if there are fewer. The calls return 0 and store
 * in `row` what infer_position returns for these bytes: -1 if no row matches. The calls with `more` in their name store
 * what infer_more_position returns.
 *
 * If the bytes could not be read, the calls return -1, `row` is -1, and errno says why. EISDIR is a directory. ENOTSUP
 * is anything else that is not a regular file: a FIFO, a socket, a device. Such a thing is not opened, so none can
 * block the program and no device does anything. Any other number is that of the system call that failed: ENOENT,
 * EACCES, ELOOP, EMFILE, EIO and so on. A call that a signal interrupts is repeated.
 *
 * The calls with a descriptor read from the file's first byte, whatever its position is, and leave the position
 * unchanged. The descriptor must be open for reading; otherwise errno is EBADF.
 *
 * `path` and `row` must not be null. Nothing is allocated, and all may be called from any thread. */
int infer_path(const char *path, int32_t *row);
int infer_fd(int fd, int32_t *row);
int infer_more_path(const char *path, int32_t *row);
int infer_more_fd(int fd, int32_t *row);

/* Everything about some bytes, by the wider answer: its row, or -1; its class, MIME type and extension, as infer_class,
 * infer_mime_type_text and infer_extension_text return them; the encoding, as infer_encoding writes it; and whether no
 * bytes that may follow change the answer, as infer_more_is_decided returns it. */
struct infer_told {
    int32_t row, class_code;
    const char *mime_type, *extension;
    char encoding[INFER_TEXT_SIZE];
    bool is_decided;
};

/* The same for a buffer, and for the first INFER_FRONT bytes of a regular file. The second call returns what infer_path
 * returns: if it fails, `told` describes no bytes. `told` must not be null. */
static inline void infer_tell(const void *buf, size_t len, struct infer_told *told);
int infer_tell_path(const char *path, struct infer_told *told);

/* The answer of infer_named for the path, as a name, and the first INFER_FRONT bytes of the file. It returns what
 * infer_path returns: if it fails, `answer` is that for the path and no bytes. `answer` must not be null. */
int infer_named_path(const char *path, struct infer_named_answer *answer);

/* A stream that comes in pieces, in the caller's memory: its first INFER_FRONT bytes, how many of these came so far,
 * and whether the verdict on them is final, as infer_verdict stores it. Start with `struct infer_sniffer it = {0};`.
 * Any call takes the kept bytes, such as infer_more_position(it.kept, it.size). `is_final` is about infer_position
 * alone: ask infer_more_is_decided(it.kept, it.size) whether the wider answer can still change. */
struct infer_sniffer {
    unsigned char kept[INFER_FRONT];
    size_t size;
    bool is_final;
};

/* Takes the next bytes of the stream, and keeps as many as there is room for. Nothing is allocated. */
static inline void infer_sniffer_push(struct infer_sniffer *it, const void *piece, size_t len);

static inline void infer_tell(const void *buf, size_t len, struct infer_told *told) {
    told->row = infer_more_position(buf, len);
    told->class_code = infer_class(told->row);
    told->mime_type = infer_mime_type_text(told->row);
    told->extension = infer_extension_text(told->row);
    infer_encoding(buf, len, told->encoding, sizeof told->encoding);
    told->is_decided = infer_more_is_decided(buf, len);
}

static inline void infer_sniffer_push(struct infer_sniffer *it, const void *piece, size_t len) {
    size_t room = sizeof it->kept - it->size;
    size_t taken = len < room ? len : room;
    if (taken == 0) return;
    memcpy(it->kept + it->size, piece, taken);
    it->size += taken;
    if (!it->is_final) infer_verdict(it->kept, it->size, &it->is_final);
}

#ifdef __cplusplus
}
#endif

#endif
