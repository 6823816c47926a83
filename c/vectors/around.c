/* Buffers that a stranger may make of each further row's sample: cut anywhere, with stated lengths at their least and
 * greatest, and with a byte turned. The wider answer must be that which asking each row by itself gives. */
#include "further.h"
#include "infer.h"
#include <stdbool.h>
#include <string.h>

/* The sample that is asked about, and what the questions about it share. */
struct asker {
    struct tally *tally;
    const int32_t *parents;
    int32_t row;
    unsigned char sample[INFER_SAMPLE_SIZE];
    size_t len;
};

/* The wider answer, as asking each row by itself gives it. */
static int32_t first_of_each(const int32_t *parents, const void *buf, size_t len) {
    int32_t parent = infer_position(buf, len), first = (int32_t)infer_row_count(), end = (int32_t)infer_more_row_count();
    for (int32_t row = first; row < end; row++)
        if (parents[row - first] == parent && infer_accepts(buf, len, row)) return row;
    return parent;
}

static void ask(const struct asker *asker, const void *buf, size_t len, const char *how, size_t place) {
    int32_t row = infer_more_position(buf, len);
    WANTS(asker->tally, row == first_of_each(asker->parents, buf, len), "row %d, %s %zu", (int)asker->row, how, place);
}

/* A longer sample is asked about at each place near its ends alone, and between them at one of so many. */
enum { LONG = 8192, END = 512, APART = 127 };

/* The next place of the sample to ask about. */
static size_t after(const struct asker *asker, size_t place) {
    bool is_inside = asker->len > LONG && place >= END && place + END + APART < asker->len;
    return place + (is_inside ? APART : 1);
}

static void cut(const struct asker *asker) {
    for (size_t n = 0; n <= asker->len; n = after(asker, n))
        ask(asker, asker->sample, n, "cut after", n);
}

/* Each byte turned in these bits. */
static void turn(const struct asker *asker, unsigned char bits) {
    unsigned char turned[INFER_SAMPLE_SIZE];
    memcpy(turned, asker->sample, asker->len);
    for (size_t place = 0; place < asker->len; place = after(asker, place)) {
        turned[place] ^= bits;
        ask(asker, turned, asker->len, "turned at", place);
        turned[place] ^= bits;
    }
}

/* So many such bytes in place of a stated length, wherever it may be. */
static void state(const struct asker *asker, size_t width, int byte) {
    for (size_t end = width; end <= asker->len; end = after(asker, end)) {
        unsigned char stated[INFER_SAMPLE_SIZE];
        memcpy(stated, asker->sample, asker->len);
        memset(stated + (end - width), byte, width);
        ask(asker, stated, asker->len, "another length before", end);
    }
}

/* That byte wherever the row still accepts the buffer, so in all lengths that its files state. */
static void fill(const struct asker *asker, unsigned char byte) {
    unsigned char filled[INFER_SAMPLE_SIZE];
    memcpy(filled, asker->sample, asker->len);
    for (size_t place = 0; place < asker->len; place++) {
        unsigned char kept = filled[place];
        filled[place] = byte;
        if (!infer_accepts(filled, asker->len, asker->row)) filled[place] = kept;
    }
    ask(asker, filled, asker->len, "filled with", byte);
}

static void ask_byte(const struct asker *asker, unsigned char byte) {
    state(asker, 2, byte);
    state(asker, 4, byte);
    state(asker, 8, byte);
    fill(asker, byte);
}

static void ask_sample(const struct asker *asker) {
    cut(asker);
    for (unsigned bits = 1; bits < 0x100; bits <<= 1)
        turn(asker, (unsigned char)bits);
    turn(asker, 0xFF);
    ask_byte(asker, 0x00);
    ask_byte(asker, 0xFF);
}

void ask_around_samples(struct tally *tally, const int32_t *parents, const bool *answered) {
    struct asker asker = {.tally = tally, .parents = parents};
    for (asker.row = (int32_t)infer_row_count(); asker.row < (int32_t)infer_more_row_count(); asker.row++) {
        if (!answered[asker.row - (int32_t)infer_row_count()]) continue;
        asker.len = infer_sample(asker.row, asker.sample, sizeof asker.sample);
        ask_sample(&asker);
    }
}
