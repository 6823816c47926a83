/* Says of each buffer of a pack, two bytes of its length and then its bytes, which of some rows accept it, whether its
 * wider answer is decided, which that is, and how it is encoded: a line with a digit a row, a digit, a number and the name.
 * usage: asked ROW.. < PACK */
#include "infer.h"
#include <stdio.h>
#include <stdlib.h>

int main(int argc, char **argv) {
    static unsigned char buf[65536];
    unsigned char head[2];
    while (fread(head, 1, sizeof head, stdin) == sizeof head) {
        size_t len = head[0] | (size_t)head[1] << 8;
        char name[INFER_TEXT_SIZE];
        if (fread(buf, 1, len, stdin) != len) return 2;
        for (int i = 1; i < argc; i++)
            putchar(infer_accepts(buf, len, (int32_t)atoi(argv[i])) ? '1' : '0');
        infer_encoding(buf, len, name, sizeof name);
        printf(" %d %d %s\n", infer_more_is_decided(buf, len), (int)infer_more_position(buf, len), name);
    }
    return 0;
}
