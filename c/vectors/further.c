/* Compares the further rows, their samples and the wider answers with data from outside, and asks about hostile buffers
 * around the samples of the rows that these answer.
 * usage: further ROWS VECTORS */
#include "further.h"
#include "infer.h"
#include <stdio.h>
#include <string.h>

static struct tally rows = {.asks = "further rows"}, parents_of_samples = {.asks = "parents"}, samples = {.asks = "samples"},
                    answers = {.asks = "wider answers"}, around = {.asks = "hostile buffers around the samples"};

/* The number of the further row that stands at this place among them. */
static int32_t further(size_t place) { return (int32_t)(infer_row_count() + place); }

static bool is_row(int32_t row, char *const fields[]) {
    return has_class(row, fields[0], strlen(fields[0])) && strcmp(infer_mime_type_text(row), fields[1]) == 0
        && strcmp(infer_extension_text(row), fields[2]) == 0;
}

/* The first built-in row of that extension, and -1 for `none`. */
static int32_t parent_named(const char *extension) {
    int32_t row = 0, count = (int32_t)infer_row_count();
    if (strcmp(extension, "none") == 0) return -1;
    while (row < count && strcmp(infer_extension_text(row), extension) != 0)
        row++;
    if (row == count) refuse(extension, "no built-in row");
    return row;
}

/* No call tells a row's parent: it is the answer of the row's sample. */
static void compare_parent(int32_t row, int32_t parent, const char *extension) {
    unsigned char sample[INFER_SAMPLE_SIZE];
    size_t len = infer_sample(row, sample, sizeof sample);
    WANTS(&parents_of_samples, infer_position(sample, len) == parent, "row %d, %s", (int)row, extension);
}

static void compare_rows(const struct table *table, int32_t *parents) {
    WANTS(&rows, further(table->count) == (int32_t)infer_more_row_count(), "%zu lines", table->count);
    for (size_t i = 0; i < table->count; i++) {
        char **fields = table->lines[i].fields;
        parents[i] = parent_named(fields[3]);
        WANTS(&rows, is_row(further(i), fields), "row %d, %s", (int)further(i), fields[2]);
        compare_parent(further(i), parents[i], fields[2]);
    }
}

/* Whether the further row at this place has a name of so many bytes: its class and extension, and its parent if it has
 * one, as `Archive/jar below zip`. */
static bool is_named(const struct table *told, size_t place, const char *name, size_t len) {
    char own[4 * INFER_TEXT_SIZE], **fields = told->lines[place].fields;
    bool is_below = strcmp(fields[3], "none") != 0;
    int size = snprintf(own, sizeof own, "%s/%s%s%s", fields[0], fields[2], is_below ? " below " : "", is_below ? fields[3] : "");
    return size >= 0 && (size_t)size == len && memcmp(own, name, len) == 0;
}

/* The further row whose name stands before the comma, or is all. */
static int32_t further_named(const struct table *told, const char *name) {
    size_t place = 0, len = strcspn(name, ",");
    while (place < told->count && !is_named(told, place, name, len))
        place++;
    if (place == told->count) refuse(name, "no such further row");
    return further(place);
}

/* Whether a line of this name has a shortest buffer of one of its row's alternatives. */
static bool is_shortest(const char *name) { return strncmp(name + strcspn(name, ","), ", shortest", 10) == 0; }

/* Whether the row's sample has at most so many bytes, and the row as its wider answer. */
static bool has_sample(int32_t row, size_t most) {
    unsigned char sample[INFER_SAMPLE_SIZE];
    size_t len = infer_sample(row, sample, sizeof sample);
    return len <= most && infer_more_position(sample, len) == row;
}

/* What a wider answer shows. */
static const char *shown_of(int32_t row) {
    static char shown[2 * INFER_TEXT_SIZE];
    if (row < 0) return "unknown";
    snprintf(shown, sizeof shown, "%s %s", infer_mime_type_text(row), infer_extension_text(row));
    return shown;
}

/* Whether the wider answer is that further row, or the built-in answer for none, and shows that. */
static bool is_wider(const struct buffer *it, int32_t further_row, const char *shown) {
    int32_t row = further_row < 0 ? infer_position(it->bytes, it->len) : further_row;
    return infer_more_position(it->bytes, it->len) == row && infer_accepts(it->bytes, it->len, row) == (row >= 0)
        && strcmp(shown_of(row), shown) == 0;
}

/* Notes in `answered` which rows the lines have as an answer. */
static void compare_buffers(const struct table *table, const struct table *told, bool *answered) {
    static struct buffer buf;
    int32_t last = -1;
    for (size_t i = 0; i < table->count; i++) {
        char **fields = table->lines[i].fields;
        const int32_t row = strcmp(fields[2], "-") == 0 ? -1 : further_named(told, fields[2]);
        decode(&buf, fields[1]);
        WANTS(&answers, is_wider(&buf, row, fields[3]), "%s", fields[0]);
        if (row < 0) continue;
        answered[row - further(0)] = true;
        if (!is_shortest(fields[0])) continue;
        /* The first alternative stands first, and the sample is of that. */
        if (row != last) WANTS(&samples, has_sample(row, buf.len), "%s", fields[0]);
        last = row;
    }
}

int main(int argc, char **argv) {
    static struct table told, vectors;
    static int32_t *parents;
    static bool *answered;
    if (argc != 3) return fputs("usage: further ROWS VECTORS\n", stderr), 2;
    told = read_table(argv[1], 5);
    vectors = read_table(argv[2], 4);
    parents = resized(NULL, told.count, sizeof *parents);
    compare_rows(&told, parents);
    answered = memset(resized(NULL, told.count, sizeof *answered), 0, told.count);
    compare_buffers(&vectors, &told, answered);
    if (rows.differing == 0) ask_around_samples(&around, parents, answered);
    const struct tally tallies[] = {rows, parents_of_samples, samples, answers, around};
    return report(tallies, sizeof tallies / sizeof *tallies) != 0;
}
