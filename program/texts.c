/* Texts that grow. */
#include "program.h"
#include <errno.h>
#include <stdarg.h>
#include <stdlib.h>
#include <string.h>

void *allocated(void *memory) {
    if (!memory) {
        fputs("infer_label: no memory\n", stderr);
        exit(FAILED);
    }
    return memory;
}

/* Room for so many bytes behind the text, which the caller counts once they are there. */
char *make_room(struct text *text, size_t size) {
    if (text->room - text->size < size) {
        size_t room = text->room + size + text->room / 2 + 256;
        text->bytes = allocated(room > size ? realloc(text->bytes, room) : NULL);
        text->room = room;
    }
    return text->bytes + text->size;
}

void put_bytes(struct text *text, const char *bytes, size_t size) {
    if (size > 0)
        memcpy(make_room(text, size), bytes, size);
    text->size += size;
}

void put_text(struct text *text, const char *more) { put_bytes(text, more, strlen(more)); }

void put_format(struct text *text, const char *format, ...) {
    char line[512];
    va_list arguments;
    va_start(arguments, format);
    int size = vsnprintf(line, sizeof line, format, arguments);
    va_end(arguments);
    if (size > 0)
        put_bytes(text, line, (size_t)size < sizeof line ? (size_t)size : sizeof line - 1);
}

/* Writes out what is left of standard output, and answers whether all of it was written. A reader that is gone wants no more,
 * and other faults are told. */
bool end_output(void) {
    bool is_written = fflush(stdout) == 0 && !ferror(stdout);
    if (!is_written && errno != EPIPE)
        fprintf(stderr, "infer_label: standard output: %s\n", strerror(errno));
    return is_written;
}

/* Puts a name as it is shown, so that a terminal obeys none of it: the front of its line. */
void put_shown(struct text *text, const char *name, size_t size) {
    size_t room = 256, got = 0;
    do {
        room += got;
        char *out = make_room(text, room);
        got = infer_label_note(name, size, INFER_LABEL_KIND, "", 0, INFER_LABEL_TEXT, 0, out, room);
    } while (got >= room);
    text->size += got - (sizeof ": \n" - 1);
}

/* How much of a line stands before all of these marks, whose last is a null pointer. */
size_t size_before(const char *const *marks, const char *line, size_t size) {
    for (; *marks; marks++) {
        const char *at = memmem(line, size, *marks, strlen(*marks));
        size = at ? (size_t)(at - line) : size;
    }
    return size;
}

/* The length of what a line tells of the type. */
size_t type_size(const char *line, size_t size) {
    static const char *const others[] = {"\n", ", ", ": ", " by its name alone", NULL};
    return size_before(others, line, size);
}
