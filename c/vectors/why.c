/* Says of each buffer of a pack, four bytes of its length and then its bytes, the lowest first, which its answers are, or what
 * decides them: a line of the built-in answer and the wider one, or for each of them a line that begins with it, how many
 * ranges are wanted, which length at least, and whether just that of the buffer; and then has each range as PLACE:LENGTH:STEP:ROW.
 * usage: why answers < PACK, or why evidence < PACK */
#include "infer.h"
#include <stdio.h>
#include <stdlib.h>
#include <string.h>

static void tell(int32_t row, const struct infer_range *ranges, const struct infer_needs *needs) {
    size_t count = needs->wanted < INFER_MOST_RANGES ? needs->wanted : INFER_MOST_RANGES;
    printf("%d %zu %zu %d", (int)row, needs->wanted, needs->least, needs->is_exact);
    for (size_t i = 0; i < count; i++)
        printf(" %zu:%zu:%zu:%d", ranges[i].place, ranges[i].len, ranges[i].step, (int)ranges[i].row);
    putchar('\n');
}

static void tell_why(const void *buf, size_t len) {
    struct infer_range ranges[INFER_MOST_RANGES];
    struct infer_needs needs;
    int32_t row = infer_evidence(buf, len, ranges, INFER_MOST_RANGES, &needs);
    tell(row, ranges, &needs);
    row = infer_more_evidence(buf, len, ranges, INFER_MOST_RANGES, &needs);
    tell(row, ranges, &needs);
}

int main(int argc, char **argv) {
    unsigned char head[4];
    bool is_why = argc == 2 && !strcmp(argv[1], "evidence");
    if (!is_why && (argc != 2 || strcmp(argv[1], "answers"))) return 2;
    while (fread(head, 1, sizeof head, stdin) == sizeof head) {
        size_t len = head[0] | head[1] << 8 | head[2] << 16 | (size_t)head[3] << 24;
        /* Of just that size, so that a checker sees a read past it. */
        unsigned char *buf = malloc(len ? len : 1);
        if (!buf || fread(buf, 1, len, stdin) != len) return 2;
        if (is_why)
            tell_why(buf, len);
        else
            printf("%d %d\n", (int)infer_position(buf, len), (int)infer_more_position(buf, len));
        free(buf);
    }
    return 0;
}
