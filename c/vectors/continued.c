/* Bytes that try to change what is decided, after the buffers of the table. */
#include "decided.h"
#include "infer.h"
#include <string.h>

static uint64_t state = 0x2545F4914F6CDD1D;

static uint64_t next(void) {
    state ^= state << 13;
    state ^= state >> 7;
    state ^= state << 17;
    return state;
}

/* A number below the count. The upper bits are the better ones. */
static size_t below(size_t count) { return (size_t)((next() >> 32) % count); }

/* The place, or one next to it. */
static size_t near(size_t place) {
    size_t after = place + below(3);
    return after ? after - 1 : 0;
}

/* Texts, each with a place where a signature asks it. */
static const struct {
    size_t place;
    const char *text;
} texts[] = {
    {0, "<?xml"},   {0, "<html>"},    {4, "ftypavif"},  {4, "ftypheic"}, {8, "AVI "},    {8, "WEBP"},    {30, "word/"},
    {49, "PK\3\4"}, {60, "BOOKMOBI"}, {79, "PK\3\4"},   {250, "webm"},   {257, "ustar"}, {1020, "%PDF"}, {6046, "PK\3\4"},
};

/* Zeros up to the place, if the buffer does not reach it yet, and the bytes. */
static void append_at(struct buffer *buf, size_t place, const void *bytes, size_t count) {
    size_t gap = buf->len < place ? place - buf->len : 0;
    memset(lengthen(buf, gap), 0, gap);
    append(buf, bytes, count);
}

/* What the buffer of some line has from the end of this one on. */
static void append_rest(struct buffer *buf, const struct told *told, size_t count) {
    const struct buffer *other = &told[below(count)].buf;
    if (other->len > buf->len) append(buf, other->bytes + buf->len, other->len - buf->len);
}

/* The sample of some row from one of its bytes on, at once or where this byte belongs, or near. */
static void append_sample(struct buffer *buf) {
    unsigned char sample[INFER_SAMPLE_SIZE];
    size_t len = infer_sample((int32_t)below(infer_row_count()), sample, sizeof sample), begin = below(len + 1);
    append_at(buf, below(2) ? near(begin) : 0, sample + begin, len - begin);
}

/* Some text, where a signature asks it, or near. */
static void append_text(struct buffer *buf) {
    size_t some = below(sizeof texts / sizeof *texts);
    append_at(buf, near(texts[some].place), texts[some].text, strlen(texts[some].text));
}

static void append_some(struct buffer *buf, const struct told *told, size_t count) {
    switch (below(3)) {
    case 0: append_rest(buf, told, count); break;
    case 1: append_sample(buf); break;
    default: append_text(buf);
    }
}

/* A number of bytes of the line: those that are just decided, or any other. */
static size_t start_of(const struct told *told) {
    return told->decided != NEVER && below(2) ? told->decided : below(told->buf.len + 1);
}

/* Whether the line allows this answer of a buffer that begins with its first `n` bytes. */
static bool is_allowed(const struct told *told, size_t n, int32_t row) {
    return n >= told->decided ? row == told->first : row < 0 || n < told->closed[row];
}

static void continue_line(struct tally *tally, const struct told *line, const struct told *told, size_t count, int continuations) {
    static struct buffer buf;
    for (int i = 0; i < continuations; i++) {
        size_t n = start_of(line);
        decode(&buf, "-");
        append(&buf, line->buf.bytes, n);
        append_some(&buf, told, count);
        WANTS(tally, is_allowed(line, n, infer_position(buf.bytes, buf.len)), "%s, after %zu bytes", line->name, n);
    }
}

void compare_continuations(struct tally *tally, const struct told *told, size_t count, int continuations) {
    for (size_t i = 0; i < count; i++)
        continue_line(tally, &told[i], told, count, continuations);
}
