/* What the programs here share: the tables of vectors/, which its README describes, the names of rows, and counts of
 * what was asked. A table that cannot be read ends the program with status 2. */
#ifndef DATA_H
#define DATA_H

#include <stdbool.h>
#include <stddef.h>
#include <stdint.h>

enum { MOST_COLUMNS = 6 };

struct line {
    char *fields[MOST_COLUMNS];
};

struct table {
    struct line *lines;
    size_t count;
};

/* Bytes that grow; all zeros is an empty one. */
struct buffer {
    unsigned char *bytes;
    size_t len, room;
};

_Noreturn void refuse(const char *what, const char *why);

/* Memory for so many things of that size, with what `old` has. */
void *resized(void *old, size_t count, size_t size);

/* Makes the buffer so many bytes longer, and gives the place of these. */
unsigned char *lengthen(struct buffer *buffer, size_t by);
void append(struct buffer *buffer, const void *bytes, size_t count);

/* Fills the buffer with the bytes that the tokens write. */
void decode(struct buffer *buffer, const char *tokens);

/* The lines of the file, each of which has so many columns. */
struct table read_table(const char *path, size_t columns);

/* The number that stands there, of decimal digits, and in `end` what follows. */
size_t number_at(const char *word, const char **end);

/* Whether the row has the class that the data names, as `Image`, or that class and extension, as `Image/png`. */
bool has_class(int32_t row, const char *class_name, size_t len);
bool has_name(int32_t row, const char *name);

/* The built-in row of that name, and -1 for `-`. */
int32_t row_named(const char *name);

/* How many questions were asked, how many answers are others than the data says, and the first that is. */
struct tally {
    const char *asks;
    long long asked, differing;
    char first[256];
};

__attribute__((format(printf, 2, 3))) void differs(struct tally *tally, const char *format, ...);

/* Counts a question. The words after it, as those of printf, name it if the answer is another. */
#define WANTS(tally, holds, ...) ((tally)->asked++, (holds) ? (void)0 : differs(tally, __VA_ARGS__))

/* Prints the counts, and gives how many tallies have an answer that differs. */
int report(const struct tally *tallies, size_t count);

#endif
