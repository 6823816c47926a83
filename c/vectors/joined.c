/* Reads names and buffers from standard input, each with its size in four bytes before it, the low byte first, and prints for
 * each pair what the library says: the standing, the MIME type that is told, and the extension and the MIME type of the wider
 * answer. */
#include "infer.h"
#include <stdio.h>
#include <stdlib.h>

/* The next part, and null at the end of the input. */
static unsigned char *next(size_t *size) {
    unsigned char digits[4];
    if (fread(digits, 1, 4, stdin) != 4) return NULL;
    *size = digits[0] | (size_t)digits[1] << 8 | (size_t)digits[2] << 16 | (size_t)digits[3] << 24;
    unsigned char *part = malloc(*size + 1);
    if (!part || fread(part, 1, *size, stdin) != *size) exit(2);
    return part;
}

int main(void) {
    unsigned char *name, *buf;
    size_t name_len, len;
    while ((name = next(&name_len)) && (buf = next(&len))) {
        struct infer_named_answer got;
        infer_named(name, name_len, buf, len, &got);
        printf("%d\t%s\t", (int)got.standing, got.told.mime_type);
        printf("%s\t%s\n", infer_extension_text(got.row), infer_mime_type_text(got.row));
        free(name);
        free(buf);
    }
    return ferror(stdin) || fflush(stdout) != 0;
}
