#include "infer.h"
#include <stdio.h>
#include <string.h>

static const char types[] = "# extension  MIME type  class  parent  signature\n"
                            "qoi          image/qoi  image  -       14: @0 \"qoif\"\n";

int main(void) {
    char reason[INFER_TEXT_SIZE], mime_type[INFER_TYPES_TEXT_SIZE], extension[INFER_TYPES_TEXT_SIZE], buf[8192];
    size_t line, column;
    if (infer_types_check(types, strlen(types), &line, &column, reason, sizeof reason)) {
        fprintf(stderr, "%zu:%zu: %s\n", line, column, reason);
        return 2;
    }
    size_t len = fread(buf, 1, sizeof buf, stdin);
    infer_types_get(types, strlen(types), buf, len, mime_type, sizeof mime_type, extension, sizeof extension);
    puts(*mime_type ? mime_type : "unknown");
}
