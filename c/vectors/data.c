#include "data.h"
#include "infer.h"
#include <ctype.h>
#include <stdarg.h>
#include <stdio.h>
#include <stdlib.h>
#include <string.h>

#define DIGITS "0123456789ABCDEF"

void refuse(const char *what, const char *why) {
    fprintf(stderr, "%s: %s\n", what, why);
    exit(2);
}

void *resized(void *old, size_t count, size_t size) {
    void *got = count > SIZE_MAX / size ? NULL : realloc(old, count * size);
    if (!got) refuse("memory", "there is too little");
    return got;
}

unsigned char *lengthen(struct buffer *buffer, size_t by) {
    if (!buffer->bytes || by > buffer->room - buffer->len) {
        buffer->room = 2 * (buffer->len + by) + 1;
        buffer->bytes = resized(buffer->bytes, buffer->room, 1);
    }
    buffer->len += by;
    return buffer->bytes + (buffer->len - by);
}

void append(struct buffer *buffer, const void *bytes, size_t count) {
    if (count) memcpy(lengthen(buffer, count), bytes, count);
}

size_t number_at(const char *word, const char **end) {
    char *after;
    if (!isdigit((unsigned char)*word)) refuse(word, "no number");
    size_t number = strtoull(word, &after, 10);
    *end = after;
    return number;
}

static unsigned digit(char c) { return (unsigned)(strchr(DIGITS, c) - DIGITS); }

static void append_pairs(struct buffer *buffer, const char *digits, size_t pairs) {
    for (size_t i = 0; i < pairs; i++)
        *lengthen(buffer, 1) = (unsigned char)(digit(digits[2 * i]) << 4 | digit(digits[2 * i + 1]));
}

/* Appends what the token writes, and gives its end. */
static const char *append_token(struct buffer *buffer, const char *token) {
    size_t pairs = strspn(token, DIGITS) / 2, times = 1;
    const char *end = token + 2 * pairs;
    if (*end == '*') times = number_at(end + 1, &end);
    if (pairs == 0 || (*end && *end != ' ')) refuse(token, "no tokens");
    for (size_t i = 0; i < times; i++)
        append_pairs(buffer, token, pairs);
    return end;
}

void decode(struct buffer *buffer, const char *tokens) {
    buffer->len = 0;
    lengthen(buffer, 0);
    if (strcmp(tokens, "-") == 0) return;
    const char *end = append_token(buffer, tokens);
    while (*end)
        end = append_token(buffer, end + 1);
}

/* The file with a zero after it. */
static char *read_text(const char *path) {
    struct buffer text = {0};
    size_t got;
    FILE *file = fopen(path, "rb");
    if (!file) perror(path), exit(2);
    do {
        got = fread(lengthen(&text, 1 << 16), 1, 1 << 16, file);
        text.len -= (1 << 16) - got;
    } while (got);
    if (ferror(file)) refuse(path, "it cannot be read");
    fclose(file);
    append(&text, "", 1);
    if (strlen((char *)text.bytes) != text.len - 1) refuse(path, "a zero");
    return (char *)text.bytes;
}

/* Cuts the line into its fields, and gives the start of the next. */
static char *split(char *line, struct line *to, size_t columns) {
    char *end = line + strcspn(line, "\n");
    size_t count = 0;
    if (!*end) refuse(line, "a line that does not end");
    *end = 0;
    while (line && count < columns) {
        to->fields[count++] = line;
        line = strchr(line, '\t');
        if (line) *line++ = 0;
    }
    if (count != columns || line) refuse(to->fields[0], "another number of columns");
    return end + 1;
}

struct table read_table(const char *path, size_t columns) {
    struct table table = {0};
    char *line = read_text(path);
    while (*line) {
        table.lines = resized(table.lines, table.count + 1, sizeof *table.lines);
        line = split(line, &table.lines[table.count++], columns);
    }
    if (!table.count) refuse(path, "no lines");
    return table;
}

bool has_class(int32_t row, const char *class_name, size_t len) {
    const char *own = infer_class_name_text(infer_class(row));
    return len > 0 && strlen(own) == len && class_name[0] == toupper((unsigned char)own[0]) && strncmp(class_name + 1, own + 1, len - 1) == 0;
}

bool has_name(int32_t row, const char *name) {
    size_t len = strcspn(name, "/");
    return name[len] && has_class(row, name, len) && strcmp(infer_extension_text(row), name + len + 1) == 0;
}

int32_t row_named(const char *name) {
    int32_t row = 0, count = (int32_t)infer_row_count();
    if (strcmp(name, "-") == 0) return -1;
    while (row < count && !has_name(row, name))
        row++;
    if (row == count) refuse(name, "no such row");
    return row;
}

void differs(struct tally *tally, const char *format, ...) {
    va_list words;
    if (tally->differing++) return;
    va_start(words, format);
    vsnprintf(tally->first, sizeof tally->first, format, words);
    va_end(words);
}

int report(const struct tally *tallies, size_t count) {
    int wrong = 0;
    for (size_t i = 0; i < count; i++) {
        const struct tally *it = &tallies[i];
        printf("%s: %lld asked, %lld differ%s%s\n", it->asks, it->asked, it->differing, it->differing ? ", the first: " : "", it->first);
        wrong += it->differing != 0;
    }
    return wrong;
}
