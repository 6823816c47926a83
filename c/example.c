#include "infer.h"
#include <stdio.h>

int main(void) {
    char buf[8192];
    size_t len = fread(buf, 1, sizeof buf, stdin);
    const char *mime_type = infer_mime_type_text(infer_position(buf, len));
    puts(*mime_type ? mime_type : "unknown");
}
