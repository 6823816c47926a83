/* Reads texts of types and buffers from standard input, each with its size in four bytes before it, the low byte first,
 * and prints for each pair what the library says: the line, the column and the reason; or the class, the MIME type and the
 * extension; and then the extension of the built-in answer, and the class, the MIME type and the extension of the wider
 * one. The texts and the buffers end at a page which may not be touched. */
#define _DEFAULT_SOURCE
#include "infer.h"
#include <stdio.h>
#include <stdlib.h>
#include <string.h>
#include <sys/mman.h>
#include <unistd.h>

enum { PAGE = 65536 };

/* A room for so many bytes that ends at a page which may not be touched. */
static unsigned char *room_of(size_t size) {
    size_t whole = (size + PAGE - 1) / PAGE * PAGE;
    unsigned char *all = mmap(NULL, whole + PAGE, PROT_READ | PROT_WRITE, MAP_PRIVATE | MAP_ANONYMOUS, -1, 0);
    if (all == MAP_FAILED || mprotect(all + whole, PAGE, PROT_NONE) != 0) {
        perror("mmap");
        exit(2);
    }
    return all + whole - size;
}

static void give_back(unsigned char *room, size_t size) {
    size_t whole = (size + PAGE - 1) / PAGE * PAGE;
    munmap(room + size - whole, whole + PAGE);
}

/* The next part, and false at the end of the input. */
static bool next(unsigned char **part, size_t *size) {
    unsigned char digits[4];
    if (fread(digits, 1, 4, stdin) != 4) return false;
    *size = digits[0] | (size_t)digits[1] << 8 | (size_t)digits[2] << 16 | (size_t)digits[3] << 24;
    *part = room_of(*size);
    return fread(*part, 1, *size, stdin) == *size;
}

static void tell(const unsigned char *text, size_t text_len, const unsigned char *buf, size_t len) {
    char reason[INFER_TEXT_SIZE], mime_type[INFER_TYPES_TEXT_SIZE], extension[INFER_TYPES_TEXT_SIZE];
    size_t line, column;
    if (infer_types_check(text, text_len, &line, &column, reason, sizeof reason)) {
        printf("%zu\t%zu\t%s\n", line, column, reason);
        return;
    }
    int32_t code = infer_types_get(text, text_len, buf, len, mime_type, sizeof mime_type, extension, sizeof extension);
    int32_t row = infer_position(buf, len), wider = infer_more_position(buf, len);
    printf("%s\t%s\t%s\t%s\t", infer_class_name_text(code), mime_type, extension, infer_extension_text(row));
    printf("%s\t%s\t%s\n", infer_class_name_text(infer_class(wider)), infer_mime_type_text(wider), infer_extension_text(wider));
}

int main(void) {
    unsigned char *text, *buf;
    size_t text_len, len;
    while (next(&text, &text_len) && next(&buf, &len)) {
        tell(text, text_len, buf, len);
        give_back(text, text_len);
        give_back(buf, len);
    }
    return ferror(stdin) || fflush(stdout) != 0;
}
