/* Hands every function buffers that end at a page which may not be touched, and text buffers of every small size with
 * a watched byte on both sides. A read or write outside ends the program by a signal; a wrong answer is counted. */
#define _DEFAULT_SOURCE
#include "guarded.h"
#include "infer.h"
#include <stdio.h>
#include <string.h>

enum { ROOM = 40960, GROWN = 16384, LONG = 8192, ROUNDS = INFER_ROUNDS };
static unsigned char *end; /* of the room, right before the page that may not be touched */
static struct infer_named_answer *answer; /* in a room of its own */
static infer_range *last_range;           /* in another, behind whose end is such a page too */
static long wrong;
static uint64_t state = 0x2545F4914F6CDD1D;

static uint64_t next(void) {
    state ^= state << 13;
    state ^= state >> 7;
    state ^= state << 17;
    return state;
}

static void wants(bool holds) { wrong += !holds; }

typedef bool test_of(const void *buf, size_t len);
static test_of *const tests[] = {
    infer_is_app, infer_is_archive, infer_is_audio, infer_is_book, infer_is_document, infer_is_font, infer_is_image,
    infer_is_video, infer_is_coff_i386, infer_is_coff_x64, infer_is_coff_ia64,
};

/* The buffer as a text of types, and asked of the text itself and of one whose only type asks for its first byte. */
static void ask_types(const void *buf, size_t len) {
    static const char one[] = "own x/own app - 1: @0 ";
    char reason[INFER_TEXT_SIZE], mime_type[INFER_TYPES_TEXT_SIZE], extension[INFER_TYPES_TEXT_SIZE], text[sizeof one + 2];
    size_t line, column, size = infer_types_check(buf, len, &line, &column, reason, sizeof reason);
    wants(size == strlen(reason) && (size == 0) == (line == 0) && (size == 0) == (column == 0));
    wants(line <= len + 1 && column <= len + 1);
    infer_types_get(buf, len, buf, len, mime_type, sizeof mime_type, extension, sizeof extension);
    int32_t row = infer_position(buf, len), wider = infer_more_position(buf, len);
    wants(infer_types_get(NULL, 0, buf, len, NULL, 0, extension, sizeof extension) == infer_class(wider));
    wants(strcmp(extension, infer_extension_text(wider)) == 0);
    wants(infer_types_line(buf, len, buf, len) <= len + 1);
    wants(infer_types_line(NULL, 0, buf, len) == 0);
    if (len == 0) return;
    snprintf(text, sizeof text, "%s%02x", one, *(const unsigned char *)buf);
    wants(infer_types_check(text, strlen(text), &line, &column, NULL, 0) == 0);
    wants(infer_types_get(text, strlen(text), buf, len, NULL, 0, NULL, 0) == (row < 0 ? INFER_APP : infer_class(wider)));
    wants(infer_types_line(text, strlen(text), buf, len) == (size_t)(row < 0));
}

/* The buffer as a name, as a type that was told and as a note, in rooms of some sizes. */
static void ask_line(const void *buf, size_t len) {
    static char whole[8 * ROOM];
    int32_t standing = 99;
    bool is_known;
    const size_t part = len < 300 ? len : 300;
    for (uint32_t form = 0; form < 4; form++) {
        const uint32_t look = (uint32_t)next() % 6, flags = (uint32_t)next() % 8;
        const size_t size = infer_label_write(buf, part, buf, len, look, form, flags, NULL, 0, buf, part, len, &standing, &is_known, whole, sizeof whole);
        wants(size < sizeof whole && strlen(whole) == size && whole[size - 1] == '\n' && memchr(whole, '\n', size) == whole + size - 1);
        wants(standing >= -1 && standing <= INFER_NOTHING && (standing >= 0) == (look == 0 || look == 5));
        const size_t room = (size_t)next() % 200;
        char out[201];
        memset(out, '.', sizeof out);
        wants(infer_label_write(buf, part, buf, len, look, form, flags, NULL, 0, buf, part, len, &standing, &is_known, out, room) == size && out[room] == '.');
        wants(room == 0 || (memcmp(out, whole, room - 1 < size ? room - 1 : size) == 0 && out[room - 1 < size ? room - 1 : size] == 0));
        const size_t noted = infer_label_note(buf, part, form & 1, buf, part, form, flags, whole, sizeof whole);
        wants(noted < sizeof whole && strlen(whole) == noted && memchr(whole, '\n', noted) == whole + noted - 1);
    }
}

/* The buffer as a name, of itself and of no bytes. The answer ends at such a page too. */
static void ask_named(const void *buf, size_t len) {
    const uint32_t odd = infer_oddities(buf, len);
    wants(odd <= (INFER_ODD_CONTROL | INFER_ODD_DIRECTION | INFER_ODD_END | INFER_ODD_TWO));
    wants(len == 0 || !memchr(buf, 0, len) || odd & INFER_ODD_CONTROL);
    for (int round = 0; round < 2; round++) {
        const void *front = round ? NULL : buf;
        const size_t size = round ? 0 : len;
        memset(answer, 0xA5, sizeof *answer);
        infer_named(buf, len, front, size, answer);
        const int32_t standing = answer->standing;
        const bool is_of_bytes = standing == INFER_AGREE || standing == INFER_BYTES_REFINE || standing == INFER_BYTES_ALONE || standing == INFER_CONTRADICTS;
        wants(standing >= INFER_AGREE && standing <= INFER_NOTHING);
        wants(answer->row == infer_more_position(front, size));
        wants(memchr(answer->told.mime_type, 0, INFER_TEXT_SIZE) && memchr(answer->name.mime_type, 0, INFER_TEXT_SIZE));
        wants(memchr(answer->told.extension, 0, INFER_TEXT_SIZE) && memchr(answer->name.extension, 0, INFER_TEXT_SIZE));
        wants(!is_of_bytes || strcmp(answer->told.mime_type, infer_mime_type_text(answer->row)) == 0);
        wants((standing != INFER_NAME_ALONE && standing != INFER_NOTHING) || answer->row < 0);
    }
}

/* The front of a buffer as the text of a MIME type, with the buffer as what it is told of. */
static void ask_mime(const char *buf, size_t len) {
    static const char *const types[] = {"", "text/plain", "image/png", "audio/ogg", "text/html", "a/b;c=d"};
    char text[INFER_MIME_SIZE], again[INFER_MIME_SIZE], essence[INFER_MIME_SIZE];
    bool has;
    size_t size = infer_mime_parse(buf, len, text, sizeof text);
    wants(size == strlen(text) && size < INFER_MIME_SIZE && infer_mime_parse(buf, len, NULL, 0) == size);
    wants(infer_mime_parse(text, size, again, sizeof again) == size && strcmp(text, again) == 0);
    wants(infer_mime_essence(buf, len, essence, sizeof essence) == strlen(essence));
    wants(size == 0 || (strncmp(text, essence, strlen(essence)) == 0 && infer_mime_groups(text, size) == infer_mime_groups(buf, len)));
    wants(infer_mime_minimize(buf, len, true, again, sizeof again) == strlen(again) && !*again == !*essence);
    infer_mime_parameter(buf, len, buf, len, &has, again, sizeof again);
    wants(!has || *essence);
    size = infer_mime_extract(buf, len, text, sizeof text);
    wants(size == strlen(text) && size < INFER_MIME_SIZE && infer_mime_extract(buf, len, NULL, 0) == size);
    wants(infer_mime_extract(text, size, again, sizeof again) == size && strcmp(text, again) == 0);
    infer_mime_is_nosniff(buf, len);
    infer_mime_is_old_server(buf, len);
    const char *type = types[next() % (sizeof types / sizeof *types)];
    const uint32_t flags = (uint32_t)next();
    size = infer_mime_compute(type, strlen(type), flags, INFER_MIME_IN_PAGE, buf, len, text, sizeof text);
    wants(size == strlen(text) && size > 0);
    size_t kept = len < INFER_MIME_HEADER ? len : INFER_MIME_HEADER;
    wants(infer_mime_compute(type, strlen(type), flags, INFER_MIME_IN_PAGE, buf, kept, again, sizeof again) == size && strcmp(text, again) == 0);
    wants(!(flags & INFER_MIME_NO_SNIFF) || !*type || strcmp(text, type) == 0);
    wants(*type || !(infer_mime_groups(text, size) & INFER_MIME_SCRIPTABLE) || (!(flags & INFER_MIME_NO_SNIFF) && infer_mime_may_be_scriptable(buf, len)));
    wants(kept < INFER_MIME_HEADER || infer_mime_is_decided(type, strlen(type), flags, buf, len));
    for (int32_t context = -1; context <= INFER_MIME_IN_CACHE_MANIFEST + 1; context++)
        infer_mime_compute(buf, len, flags, context, buf, len, text, sizeof text);
    wants(!infer_mime_is_blocked(buf, len, INFER_MIME_OTHER));
    infer_mime_is_blocked(buf, len, INFER_MIME_SCRIPT);
    infer_mime_is_blocked(buf, len, INFER_MIME_STYLE);
}

typedef int32_t position_of(const void *buf, size_t len);
typedef int32_t evidence_of(const void *buf, size_t len, infer_range *ranges, size_t room, infer_needs *needs);

/* The place behind the last byte of a range, which has some. */
static size_t behind_range(const infer_range *range) {
    return range->place + (range->len - 1) * range->step + 1;
}

/* Another buffer with the same bytes in the ranges, of a length that the needs allow: its answer has to be the same. */
static void ask_alike(position_of *position, int32_t row, const unsigned char *buf, size_t len, const infer_range *ranges, const infer_needs *needs) {
    static unsigned char changed[ROOM + 64];
    const size_t most = (len > GROWN ? len : GROWN) + 64;
    size_t least = needs->least;
    for (size_t i = 0; i < most; i++)
        changed[i] = (unsigned char)next();
    for (size_t i = 0; i < needs->wanted; i++) {
        const size_t behind = behind_range(ranges + i);
        for (size_t k = ranges[i].place; k < behind; k += ranges[i].step)
            changed[k] = buf[k];
        if (behind > least) least = behind;
    }
    wants(position(changed, needs->is_exact ? len : least + next() % (most - least)) == row);
}

/* What decides the answer, with any room. */
static void ask_evidence(evidence_of *ask, position_of *position, const void *buf, size_t len) {
    const size_t room = next() % (INFER_MOST_RANGES + 2), rows = infer_more_row_count();
    const int32_t row = position(buf, len);
    infer_range *ranges = last_range + 1 - room, none;
    infer_needs needs;
    memset(&needs, 0xA5, sizeof needs);
    memset(&none, 0xA5, sizeof none);
    memset(ranges - 1, 0xA5, (room + 1) * sizeof *ranges);
    wants(ask(buf, len, room ? ranges : NULL, room, &needs) == row);
    wants(needs.least <= len && (needs.wanted <= 68 || ask == infer_more_evidence));
    const size_t most = room < INFER_MOST_RANGES ? room : INFER_MOST_RANGES, written = needs.wanted < most ? needs.wanted : most;
    for (size_t i = 0; i < written; i++) {
        wants(ranges[i].len > 0 && ranges[i].len <= len && ranges[i].step > 0 && ranges[i].step <= 65536);
        wants(ranges[i].place < len && behind_range(ranges + i) <= len);
        wants(ranges[i].row >= -1 && ranges[i].row < (int32_t)rows);
    }
    wants(memcmp(ranges - 1, &none, sizeof none) == 0);
    for (size_t i = written; i < room; i++)
        wants(memcmp(ranges + i, &none, sizeof none) == 0);
    if (written == needs.wanted) ask_alike(position, row, buf, len, ranges, &needs);
}

/* What the calls say of one buffer must agree. */
static void ask(const void *buf, size_t len) {
    bool is_final;
    uint32_t asked;
    int32_t row = infer_position(buf, len);
    wants(row >= -1 && row < (int32_t)infer_row_count());
    wants(infer_verdict(buf, len, &is_final) == row);
    wants(!is_final || len >= 1024);
    wants(infer_position_counted(buf, len, &asked) == row && asked <= 25);
    wants(infer_accepts(buf, len, row) == (row >= 0));
    bool is_decided = infer_is_decided(buf, len);
    wants(is_decided || !is_final);
    wants(infer_may_become(buf, len, row) == (row >= 0));
    for (int32_t before = 0; before < row; before++) {
        wants(!infer_accepts(buf, len, before));
        wants(!is_decided || !infer_may_become(buf, len, before));
    }
    for (size_t i = 0; i < sizeof tests / sizeof *tests; i++)
        tests[i](buf, len);
    int32_t wider = infer_more_position(buf, len);
    wants(wider == row || (wider >= (int32_t)infer_row_count() && wider < (int32_t)infer_more_row_count()));
    wants(infer_accepts(buf, len, wider) == (wider >= 0));
    wants(infer_may_become(buf, len, wider) == (row >= 0 && wider == row));
    wants(infer_more_may_become(buf, len, wider) == (wider >= 0));
    wants(is_decided || !infer_more_is_decided(buf, len));
    char name[16];
    wants(infer_encoding(buf, len, name, sizeof name) == strlen(name));
    wants(infer_encoding(buf, len, NULL, 0) == strlen(name));
    char content_type[INFER_TEXT_SIZE];
    wants(infer_detect_content_type(buf, len, content_type, sizeof content_type) == strlen(content_type) && *content_type);
    wants(infer_detect_content_type(buf, len, NULL, 0) == strlen(content_type));
    ask_mime(buf, len);
    ask_types(buf, len);
    ask_named(buf, len);
    ask_line(buf, len);
    ask_evidence(infer_evidence, infer_position, buf, len);
    ask_evidence(infer_more_evidence, infer_more_position, buf, len);
    infer_is(buf, len, buf, len);
    infer_is_mime(buf, len, buf, len);
    infer_is_supported(buf, len);
    infer_is_mime_supported(buf, len);
    wants(infer_is(buf, len, "no such", 7) == false);
}

/* A sample, or nothing, with random bytes in and after it, in a room that ends with it. */
static void ask_some(void) {
    static const size_t lengths[] = {0, 1, 2, 8, 64, 640, 1023, 1024, 1025, 4096, 8192, 16384, 32775};
    size_t len = lengths[next() % (sizeof lengths / sizeof *lengths)];
    len -= len ? next() % len % 40 : 0;
    unsigned char sample[INFER_SAMPLE_SIZE], *buf = end - len;
    size_t known = infer_sample((int32_t)(next() % infer_more_row_count()), sample, sizeof sample);
    int kind = (int)(next() % 3);
    for (size_t i = 0; i < len; i++)
        buf[i] = kind == 0 ? (unsigned char)next() : kind == 1 ? 0 : 0xFF;
    memcpy(buf, sample, known < len ? known : len);
    for (uint64_t flips = next() % 4; len && flips; flips--)
        buf[next() % (len < 64 ? len : 64)] = (unsigned char)next();
    ask(buf, len);
}

typedef size_t text_of(int32_t number, char *out, size_t size);
static size_t version(int32_t number, char *out, size_t size) { return (void)number, infer_version(out, size); }
static text_of *const texts[] = {infer_mime_type, infer_extension, infer_class_name, version};
static const char *own_version(int32_t number) { return (void)number, INFER_VERSION; }
static const char *(*const own_texts[])(int32_t) = {infer_mime_type_text, infer_extension_text, infer_class_name_text, own_version};

/* A text of any number, into each size, at the end of the room. */
static void write_texts(int32_t number) {
    char whole[128];
    for (size_t t = 0; t < sizeof texts / sizeof *texts; t++) {
        size_t len = texts[t](number, whole, sizeof whole);
        wants(len == strlen(whole) && len < INFER_TEXT_SIZE);
        wants(strcmp(own_texts[t](number), whole) == 0);
        for (size_t size = 0; size <= len + 2; size++) {
            char *out = (char *)end - size;
            out[-1] = '.';
            wants(texts[t](number, out, size) == len && out[-1] == '.');
            wants(size == 0 || (strlen(out) == (len < size ? len : size - 1) && strncmp(out, whole, strlen(out)) == 0));
        }
    }
}

static void write_samples(int32_t row) {
    unsigned char sample[INFER_SAMPLE_SIZE];
    size_t len = infer_sample(row, sample, sizeof sample);
    for (size_t size = 0; size <= len + 1; size++) {
        /* The sizes between the ends of a long one are alike. */
        if (size == LONG / 2 && len > LONG) size = len - LONG / 2;
        unsigned char *out = end - size;
        memset(out - 1, '.', size + 1);
        wants(infer_sample(row, out, size) == len && out[-1] == '.');
        wants(size >= len ? memcmp(out, sample, len) == 0 : size == 0 || (out[0] == '.' && out[size - 1] == '.'));
    }
}

int main(void) {
    const int32_t last = (int32_t)infer_more_row_count() - 1;
    const int32_t numbers[] = {INT32_MIN, INT32_MIN + 1, -2, -1, last + 1, last + 2, 255, 256, 65536, INT32_MAX - 1, INT32_MAX};
    unsigned char *room = guarded(whole_pages(ROOM));
    unsigned char *other = guarded(whole_pages(sizeof *answer));
    unsigned char *third = guarded(whole_pages((INFER_MOST_RANGES + 2) * sizeof *last_range));
    if (!room || !other || !third) return perror("hostile"), 2;
    end = room + whole_pages(ROOM);
    answer = (struct infer_named_answer *)(void *)(other + whole_pages(sizeof *answer)) - 1;
    last_range = (infer_range *)(void *)(third + whole_pages((INFER_MOST_RANGES + 2) * sizeof *last_range)) - 1;
    for (int i = 0; i < ROUNDS; i++)
        ask_some();
    for (int32_t row = 0; row <= last; row++) {
        write_texts(row);
        write_samples(row);
    }
    for (size_t i = 0; i < sizeof numbers / sizeof *numbers; i++) {
        write_texts(numbers[i]);
        write_samples(numbers[i]);
    }
    printf("%d hostile buffers, %ld answers wrong\n", ROUNDS, wrong);
    return wrong != 0;
}
