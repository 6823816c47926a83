/* Compares the built-in rows, their samples and answers with data from outside.
 * usage: built_in ROWS VECTORS */
#include "data.h"
#include "infer.h"
#include <stdio.h>
#include <string.h>

static struct tally rows = {.asks = "rows"}, samples = {.asks = "samples"}, answers = {.asks = "answers of buffers"},
                    stated = {.asks = "buffers with other stated lengths"}, first = {.asks = "rows that are first for a buffer"};

typedef bool test_of(const void *buf, size_t len);
/* No call asks about the class of texts. */
static test_of *const of_class[] = {
    [INFER_APP] = infer_is_app,      [INFER_ARCHIVE] = infer_is_archive, [INFER_AUDIO] = infer_is_audio,
    [INFER_BOOK] = infer_is_book,    [INFER_DOC] = infer_is_document,    [INFER_FONT] = infer_is_font,
    [INFER_IMAGE] = infer_is_image,  [INFER_VIDEO] = infer_is_video,
};

/* How many rows have that class and extension. */
static int count_named(const char *class_name, const char *extension) {
    int count = 0;
    for (int32_t row = 0; row < (int32_t)infer_row_count(); row++)
        count += has_class(row, class_name, strlen(class_name)) && strcmp(infer_extension_text(row), extension) == 0;
    return count;
}

static bool is_row(int32_t row, char *const fields[]) {
    return has_class(row, fields[0], strlen(fields[0])) && strcmp(infer_mime_type_text(row), fields[1]) == 0
        && strcmp(infer_extension_text(row), fields[2]) == 0 && count_named(fields[0], fields[2]) == 1
        && infer_is_mime_supported(fields[1], strlen(fields[1])) && infer_is_supported(fields[2], strlen(fields[2]));
}

static bool is_sample(int32_t row, const char *tokens) {
    static struct buffer wanted;
    unsigned char sample[INFER_SAMPLE_SIZE];
    size_t len = infer_sample(row, sample, sizeof sample);
    if (strcmp(tokens, "none") == 0) return len == 0;
    decode(&wanted, tokens);
    return len == wanted.len && memcmp(sample, wanted.bytes, len) == 0 && infer_position(sample, len) == row;
}

static void compare_rows(const struct table *table) {
    WANTS(&rows, table->count == infer_row_count(), "%zu lines for %zu rows", table->count, infer_row_count());
    for (size_t i = 0; i < table->count; i++) {
        char **fields = table->lines[i].fields;
        WANTS(&rows, is_row((int32_t)i, fields), "row %zu, %s/%s", i, fields[0], fields[2]);
        WANTS(&samples, is_sample((int32_t)i, fields[3]), "row %zu, %s/%s", i, fields[0], fields[2]);
    }
}

/* The first row that accepts the buffer if each is asked by itself. */
static int32_t first_accepted(const void *buf, size_t len) {
    for (int32_t row = 0; row < (int32_t)infer_row_count(); row++)
        if (infer_accepts(buf, len, row)) return row;
    return -1;
}

/* What the calls answer of the row's own texts and class. */
static bool is_asked_by_texts(const void *buf, size_t len, int32_t row) {
    const char *extension = infer_extension_text(row), *mime_type = infer_mime_type_text(row);
    int32_t class_code = infer_class(row);
    return infer_is(buf, len, extension, strlen(extension)) && infer_is_mime(buf, len, mime_type, strlen(mime_type))
        && (class_code == INFER_TEXT || of_class[class_code](buf, len));
}

/* Whether all calls answer as if that row is the first, or none if it is -1. */
static bool is_first(const struct buffer *it, int32_t row) {
    bool is_final;
    uint32_t asked;
    return infer_position(it->bytes, it->len) == row && infer_position_counted(it->bytes, it->len, &asked) == row && asked <= 25
        && (asked > 0 || row < 0) && infer_verdict(it->bytes, it->len, &is_final) == row
        && (!is_final || (it->len >= 1024 && infer_is_decided(it->bytes, it->len)))
        && first_accepted(it->bytes, it->len) == row && (row < 0 || is_asked_by_texts(it->bytes, it->len, row));
}

/* The places at which formats state a length. */
static const size_t places[] = {0, 4, 18, 48};

/* The buffer with four such bytes at each of the places, as far as it goes: the calls must agree with one another. */
static void state_lengths(const char *name, const struct buffer *it, int byte) {
    static struct buffer other;
    for (size_t i = 0; i < sizeof places / sizeof *places; i++) {
        size_t rest = it->len > places[i] ? it->len - places[i] : 0;
        decode(&other, "-");
        append(&other, it->bytes, it->len);
        if (rest) memset(other.bytes + places[i], byte, rest < 4 ? rest : 4);
        WANTS(&stated, is_first(&other, infer_position(other.bytes, other.len)), "%s with %02X at %zu", name, (unsigned)byte, places[i]);
    }
}

/* Notes in `seen` the rows that are some buffer's answer. */
static void compare_buffers(const struct table *table, bool *seen) {
    static struct buffer buf;
    for (size_t i = 0; i < table->count; i++) {
        char **fields = table->lines[i].fields;
        int32_t row = row_named(fields[2]);
        decode(&buf, fields[3]);
        WANTS(&answers, is_first(&buf, row), "%s, %s", fields[0], fields[2]);
        if (row >= 0) seen[row] = true;
        state_lengths(fields[0], &buf, 0xFF);
        state_lengths(fields[0], &buf, 0x00);
    }
}

/* A row is first for some buffer exactly if it has a sample. Prints those that are not. */
static void compare_seen(const struct table *table, const bool *seen) {
    for (size_t i = 0; i < table->count; i++) {
        char **fields = table->lines[i].fields;
        if (!seen[i]) printf("first for no buffer: %s/%s\n", fields[0], fields[2]);
        WANTS(&first, seen[i] == (strcmp(fields[3], "none") != 0), "row %zu, %s/%s", i, fields[0], fields[2]);
    }
}

static bool *all_false(size_t count) {
    bool *all = resized(NULL, count, sizeof *all);
    memset(all, 0, count);
    return all;
}

int main(int argc, char **argv) {
    static struct table told, vectors;
    static bool *seen;
    if (argc != 3) return fputs("usage: built_in ROWS VECTORS\n", stderr), 2;
    told = read_table(argv[1], 4);
    vectors = read_table(argv[2], 4);
    seen = all_false(told.count > infer_row_count() ? told.count : infer_row_count());
    compare_rows(&told);
    compare_buffers(&vectors, seen);
    compare_seen(&told, seen);
    const struct tally tallies[] = {rows, samples, answers, stated, first};
    return report(tallies, sizeof tallies / sizeof *tallies) != 0;
}
