/* A line of the table of what more bytes can change. */
#ifndef DECIDED_H
#define DECIDED_H

#include "data.h"

/* More bytes than any buffer has, where the table says that not even all are enough. */
#define NEVER SIZE_MAX

struct told {
    const char *name;
    int32_t first;      /* the row that is the answer, or -1 */
    size_t decided;     /* the least number of bytes that are decided */
    size_t *closed;     /* for each row, after how many bytes no more bytes make it accept */
    struct buffer buf;
    const char *change; /* the tokens of bytes that change the answer, or `far` */
};

/* Tries so many continuations of each buffer, the same in each run. */
void compare_continuations(struct tally *tally, const struct told *told, size_t count, int continuations);

#endif
