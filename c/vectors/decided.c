/* Compares what more bytes can change with a table from outside, at the cuts of its buffers.
 * usage: decided TABLE */
#include "decided.h"
#include "infer.h"
#include <stdio.h>
#include <stdlib.h>
#include <string.h>

/* Each cut up to this length is asked about. */
enum { EACH = 1100, CONTINUATIONS = 800 };

/* Of 100 cuts whose wider answer stays, so many at least are told so. */
enum { LEAST_SHARE = 99 };

static struct tally answers = {.asks = "answers of buffers"}, cuts_decided = {.asks = "cuts that are decided or not"},
                    cuts_open = {.asks = "cuts and rows that may come"}, cuts_wider = {.asks = "cuts whose wider answer stays"},
                    changes = {.asks = "changes"}, continued = {.asks = "continuations"};

/* Of the cuts whose wider answer stays by the table, how many there are, and how many are told so. */
static long long staying, told_so;

static size_t least_at(const char *word, const char **end) {
    if (*word != '-') return number_at(word, end);
    *end = word + 1;
    return NEVER;
}

/* Stores a number with its count from `row` on, and gives the row after them. */
static size_t close_rows(const char **word, size_t *closed, size_t row) {
    size_t least = least_at(*word, word), times = 1, count = infer_row_count();
    if (**word == '*') times = number_at(*word + 1, word);
    if (times > count - row || (**word && **word != ' ')) refuse(*word, "no numbers of all rows");
    for (size_t end = row + times; row < end; row++)
        closed[row] = least;
    return row;
}

static size_t *closed_of(const char *words) {
    size_t count = infer_row_count(), *closed = resized(NULL, count, sizeof *closed);
    size_t row = close_rows(&words, closed, 0);
    while (*words++)
        row = close_rows(&words, closed, row);
    if (row != count) refuse("a line", "it has not all rows");
    return closed;
}

static struct told told_of(char *const fields[]) {
    const char *end;
    struct told told = {.name = fields[0], .first = row_named(fields[1]), .decided = least_at(fields[2], &end), .change = fields[5]};
    if (*end) refuse(fields[2], "no number");
    told.closed = closed_of(fields[3]);
    decode(&told.buf, fields[4]);
    return told;
}

static int by_size(const void *a, const void *b) {
    size_t one = *(const size_t *)a, other = *(const size_t *)b;
    return (one > other) - (one < other);
}

/* Adds the number and the one below it. */
static size_t add_both(size_t *cuts, size_t count, size_t least) {
    if (least == NEVER) return count;
    cuts[count] = least;
    cuts[count + 1] = least ? least - 1 : 0;
    return count + 2;
}

static size_t without_repeats(size_t *cuts, size_t count) {
    size_t kept = 1;
    for (size_t i = 1; i < count; i++)
        if (cuts[i] != cuts[kept - 1]) cuts[kept++] = cuts[i];
    return kept;
}

static size_t list_short_cuts(const struct told *told, size_t *cuts) {
    size_t count = 0;
    while (count <= EACH && count <= told->buf.len)
        cuts[count] = count, count++;
    return count;
}

/* The lengths to ask about: each up to EACH, and of the longer ones those at which something begins to hold, those that
 * are a byte shorter, and the whole buffer. */
static size_t list_cuts(const struct told *told, size_t *cuts) {
    size_t count = list_short_cuts(told, cuts);
    cuts[count++] = told->buf.len;
    count = add_both(cuts, count, told->decided);
    for (size_t row = 0; row < infer_row_count(); row++)
        count = add_both(cuts, count, told->closed[row]);
    qsort(cuts, count, sizeof *cuts, by_size);
    return without_repeats(cuts, count);
}

static void compare_cut(const struct told *told, size_t n) {
    const unsigned char *buf = told->buf.bytes;
    bool is_decided = n >= told->decided;
    int32_t row = infer_position(buf, n);
    bool is_allowed = is_decided ? row == told->first : row < 0 || n < told->closed[row];
    WANTS(&cuts_decided, infer_is_decided(buf, n) == is_decided && is_allowed, "%s, of %zu bytes", told->name, n);
}

/* Whether some further row widens the row. No call tells a row's parent: it is the answer of the row's sample. */
static bool is_widened(int32_t row) {
    static bool *widened;
    if (!widened) {
        widened = memset(resized(NULL, infer_row_count(), sizeof *widened), 0, infer_row_count() * sizeof *widened);
        for (int32_t of = (int32_t)infer_row_count(); of < (int32_t)infer_more_row_count(); of++) {
            unsigned char sample[INFER_SAMPLE_SIZE];
            int32_t parent = infer_position(sample, infer_sample(of, sample, sizeof sample));
            if (parent >= 0) widened[parent] = true;
        }
    }
    return widened[row];
}

/* A change of the answer changes the wider one, too, and an answer that no further row widens is the wider one. So a yes
 * has to be right, and of those that the table has the library has to know nearly all. */
static void compare_wider(const struct told *told, size_t n) {
    bool is_decided = n >= told->decided, stays = infer_more_is_decided(told->buf.bytes, n);
    WANTS(&cuts_wider, !stays || is_decided, "%s, of %zu bytes", told->name, n);
    if (!is_decided || told->first < 0 || is_widened(told->first)) return;
    staying++;
    told_so += stays;
}

static void compare_rows(const struct told *told, size_t n) {
    const unsigned char *buf = told->buf.bytes;
    const int32_t count = (int32_t)infer_row_count();
    for (int32_t row = 0; row < count; row++)
        WANTS(&cuts_open, infer_may_become(buf, n, row) == (n < told->closed[row]), "%s, row %d, of %zu bytes", told->name, (int)row, n);
}

static void compare_line(const struct told *told) {
    size_t *cuts = resized(NULL, EACH + 4 + 2 * infer_row_count(), sizeof *cuts), count = list_cuts(told, cuts);
    if (cuts[count - 1] > told->buf.len) refuse(told->name, "a number beyond the buffer");
    WANTS(&answers, infer_position(told->buf.bytes, told->buf.len) == told->first, "%s", told->name);
    for (size_t i = 0; i < count; i++) {
        compare_cut(told, cuts[i]);
        compare_wider(told, cuts[i]);
        compare_rows(told, cuts[i]);
    }
    free(cuts);
}

/* Whether the bytes of the last column bring an earlier row, or one where there was none, after as many bytes as are
 * just not decided. */
static bool is_changed(const struct told *told) {
    static struct buffer change, whole;
    size_t n = told->decided == NEVER ? told->buf.len : told->decided - 1;
    decode(&change, told->change);
    decode(&whole, "-");
    append(&whole, told->buf.bytes, n);
    int32_t before = infer_position(whole.bytes, whole.len);
    append(&whole, change.bytes, change.len);
    int32_t after = infer_position(whole.bytes, whole.len);
    return after >= 0 && (before < 0 || after < before);
}

static void compare_change(const struct told *told) {
    if (told->decided == 0) refuse(told->name, "the empty buffer is never decided");
    if (strcmp(told->change, "far") != 0) WANTS(&changes, is_changed(told), "%s", told->name);
}

int main(int argc, char **argv) {
    static struct table table;
    static struct told *told;
    if (argc != 2) return fputs("usage: decided TABLE\n", stderr), 2;
    table = read_table(argv[1], 6);
    told = resized(NULL, table.count, sizeof *told);
    for (size_t i = 0; i < table.count; i++) {
        told[i] = told_of(table.lines[i].fields);
        compare_line(&told[i]);
        compare_change(&told[i]);
    }
    compare_continuations(&continued, told, table.count, CONTINUATIONS);
    const struct tally tallies[] = {answers, cuts_decided, cuts_open, cuts_wider, changes, continued};
    printf("cuts whose wider answer stays: %lld by the table, %lld of them told so\n", staying, told_so);
    return report(tallies, sizeof tallies / sizeof *tallies) != 0 || told_so * 100 < staying * LEAST_SHARE;
}
