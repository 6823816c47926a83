/* Tells how many bytes an evidence names of each buffer of a pack, and how few may do, by trying.
 *
 * A trial lays texts over the buffer at their places, or changes one byte that the evidence names. If the answer changes, an
 * evidence has to name one of the places that the trial changed. The fewest that do are a greedy choice of places that meets
 * every trial: by no trial is it told that fewer do not.
 * usage: sharp built_in|wider TRIALS ROW < PACK. A pack is four bytes of a length and then its bytes, the lowest first; TRIALS
 * has of each trial four bytes of a count, and of each text its place, its length, four bytes each, and its bytes.
 * A line a buffer: how many ranges are wanted, how many bytes are named, the fewest, and whether a range tells of that row. */
#include "infer.h"
#include <stdio.h>
#include <stdlib.h>
#include <string.h>

enum { LONGEST = 1 << 16, FEW = 64 };

struct text {
    size_t place, len;
    const unsigned char *bytes;
};

struct trial {
    size_t count;
    struct text *texts;
};

/* Places, in the order in which they are found. */
struct places {
    uint32_t *at;
    size_t count, room;
};

static void *wanted(void *memory) {
    if (!memory) exit(2);
    return memory;
}

static void push(struct places *to, size_t place) {
    if (to->count == to->room) {
        to->room = to->room ? 2 * to->room : 1024;
        to->at = wanted(realloc(to->at, to->room * sizeof *to->at));
    }
    to->at[to->count++] = (uint32_t)place;
}

static size_t number(const unsigned char *from) {
    return from[0] | from[1] << 8 | from[2] << 16 | (size_t)from[3] << 24;
}

/* The trials of a file. */
static struct trial *read_trials(const char *path, size_t *count) {
    FILE *file = wanted(fopen(path, "rb"));
    fseek(file, 0, SEEK_END);
    size_t len = (size_t)ftell(file), at = 0;
    unsigned char *bytes = wanted(malloc(len + 1));
    struct trial *trials = wanted(malloc((len / 4 + 1) * sizeof *trials));
    rewind(file);
    if (fread(bytes, 1, len, file) != len) exit(2);
    fclose(file);
    for (*count = 0; at < len; ++*count) {
        struct trial *it = &trials[*count];
        it->count = number(bytes + at);
        it->texts = wanted(malloc((it->count + 1) * sizeof *it->texts));
        at += 4;
        for (size_t i = 0; i < it->count; i++) {
            it->texts[i] = (struct text){number(bytes + at), number(bytes + at + 4), bytes + at + 8};
            at += 8 + it->texts[i].len;
        }
    }
    return trials;
}

typedef int32_t answering(const void *buf, size_t len);

/* What is tried of one buffer: `changes` has of each trial that changes the answer its places, and where they begin. */
struct tried {
    answering *answer;
    unsigned char *buf;
    size_t len;
    int32_t row;
    bool *named, *is_forced;
    size_t forced;
    struct places changes, begins;
};

/* Tries each byte that is named: with other values, of which all are tried if few bytes are named. */
static void try_bytes(struct tried *it, size_t named) {
    unsigned step = named <= FEW ? 1 : 0x55;
    for (size_t place = 0; place < it->len; place++) {
        unsigned char kept = it->buf[place];
        if (!it->named[place]) continue;
        for (unsigned by = 0; by < 0x100 && !it->is_forced[place]; by += step) {
            /* 00 is tried first: no text has it. */
            it->buf[place] = (unsigned char)by;
            it->is_forced[place] = it->buf[place] != kept && it->answer(it->buf, it->len) != it->row;
        }
        it->buf[place] = kept;
        it->forced += it->is_forced[place];
    }
}

/* Lays the texts over the buffer, unless one goes past its end. Notes the places that change, and restores them. */
static void try_texts(struct tried *it, const struct trial *trial) {
    static unsigned char kept[LONGEST];
    size_t begin = it->changes.count;
    bool is_met = false;
    for (size_t i = 0; i < trial->count; i++)
        if (trial->texts[i].place + trial->texts[i].len > it->len) return;
    for (size_t i = 0; i < trial->count; i++)
        for (size_t k = 0; k < trial->texts[i].len; k++) {
            size_t place = trial->texts[i].place + k;
            if (it->buf[place] == trial->texts[i].bytes[k]) continue;
            is_met |= it->is_forced[place];
            kept[it->changes.count - begin] = it->buf[place];
            push(&it->changes, place);
            it->buf[place] = trial->texts[i].bytes[k];
        }
    /* A trial that a forced place meets asks for nothing more. */
    bool is_told = it->changes.count > begin && !is_met && it->answer(it->buf, it->len) != it->row;
    for (size_t k = it->changes.count; k-- > begin;)
        it->buf[it->changes.at[k]] = kept[k - begin];
    if (is_told)
        push(&it->begins, begin);
    else
        it->changes.count = begin;
}

/* How many places meet all trials, if that which meets most of those that are left is taken each time. */
static size_t greedy(struct tried *it) {
    size_t *meets = wanted(calloc(it->len + 1, sizeof *meets)), taken = 0;
    bool *is_met = wanted(calloc(it->begins.count + 1, sizeof *is_met));
    push(&it->begins, it->changes.count);
    for (size_t k = 0; k < it->changes.count; k++)
        meets[it->changes.at[k]]++;
    for (;; taken++) {
        size_t best = 0;
        for (size_t place = 1; place < it->len; place++)
            if (meets[place] > meets[best]) best = place;
        if (!it->len || !meets[best]) break;
        for (size_t trial = 0; trial + 1 < it->begins.count; trial++) {
            bool has = false;
            for (size_t k = it->begins.at[trial]; k < it->begins.at[trial + 1]; k++)
                has |= it->changes.at[k] == best;
            if (!has || is_met[trial]) continue;
            is_met[trial] = true;
            for (size_t k = it->begins.at[trial]; k < it->begins.at[trial + 1]; k++)
                meets[it->changes.at[k]]--;
        }
    }
    free(meets);
    free(is_met);
    return taken;
}

static void tell(const struct trial *trials, size_t count, bool is_wider, int32_t row, unsigned char *buf, size_t len) {
    struct infer_range ranges[INFER_MOST_RANGES];
    struct infer_needs needs;
    struct tried it = {.answer = is_wider ? infer_more_position : infer_position, .buf = buf, .len = len};
    size_t named = 0;
    bool has_row = false;
    it.row = (is_wider ? infer_more_evidence : infer_evidence)(buf, len, ranges, INFER_MOST_RANGES, &needs);
    it.named = wanted(calloc(len + 1, sizeof *it.named));
    it.is_forced = wanted(calloc(len + 1, sizeof *it.is_forced));
    for (size_t i = 0; i < needs.wanted && i < INFER_MOST_RANGES; i++) {
        for (size_t k = 0; k < ranges[i].len; k++)
            it.named[ranges[i].place + k * ranges[i].step] = true;
        has_row |= ranges[i].row == row;
    }
    for (size_t place = 0; place < len; place++)
        named += it.named[place];
    try_bytes(&it, named);
    for (size_t i = 0; i < count; i++)
        try_texts(&it, &trials[i]);
    printf("%zu %zu %zu %d\n", needs.wanted, named, it.forced + greedy(&it), has_row);
    free(it.named);
    free(it.is_forced);
    free(it.changes.at);
    free(it.begins.at);
}

int main(int argc, char **argv) {
    unsigned char head[4];
    size_t count;
    if (argc != 4) return 2;
    struct trial *trials = read_trials(argv[2], &count);
    while (fread(head, 1, sizeof head, stdin) == sizeof head) {
        size_t len = number(head);
        unsigned char *buf = wanted(malloc(len + 1));
        if (len > LONGEST || fread(buf, 1, len, stdin) != len) return 2;
        tell(trials, count, !strcmp(argv[1], "wider"), (int32_t)atoi(argv[3]), buf, len);
        free(buf);
    }
    return 0;
}
