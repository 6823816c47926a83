/* Prints a sum of all that the library says of its rows, and of so many buffers, a hundred a line: samples that are cut,
 * spoiled and joined, texts and chance. Two builds of one library print the same, whatever the machine.
 * usage: fingerprint COUNT */
#include "infer.h"
#include <inttypes.h>
#include <stdio.h>
#include <stdlib.h>
#include <string.h>

enum { ROOM = 70000, BLOCK = 100, EVERY = 7 };
static const char types[] = "qoi image/qoi image - 14: @0 \"qoif\"\nown text/x-own text xml 6: @0 \"<?xml \"\nzz a/zz app - 3: @1 {01..7F} @2 00\n";
static const char *const texts[] = {
    "{\"a\": [1, 2.5e3, null, \"x\"]}", "<?xml version='1.0'?>\n<svg xmlns='http://www.w3.org/2000/svg'/>", "plain text\n",
    "gr\xC3\xBC\xC3\x9F" "e \xE2\x82\xAC \xF0\x9F\x98\x80\n", "\xFF\xFE" "a", "\xEF\xBB\xBF{}", "<!DOCTYPE html><html>", "#!/bin/sh\n",
    "qoif  image/qoi  image  -  14: @0 \"qoif\"\n",
};
static uint64_t state = 0x2545F4914F6CDD1D, sum;

static uint64_t next(uint64_t below) {
    state ^= state << 13;
    state ^= state >> 7;
    state ^= state << 17;
    return (state >> 16) % below;
}

static void note(int64_t told) {
    for (int shift = 0; shift < 64; shift += 8)
        sum = (sum ^ ((uint64_t)told >> shift & 0xFF)) * UINT64_C(0x100000001B3);
}

static void note_text(const char *text) {
    for (; *text; text++) note(*text & 0xFF);
    note(-1);
}

/* Puts a sample, a text or chance into the buffer at a place, and gives where it ends. */
static size_t put(unsigned char *buf, size_t at) {
    const char *text = texts[next(sizeof texts / sizeof *texts)];
    unsigned char *to = buf + at;
    size_t len = strlen(text);
    switch (next(8)) {
    case 0: memcpy(to, text, len); return at + len;
    case 1:
        len = next(300);
        for (size_t i = 0; i < len; i++) to[i] = (unsigned char)next(256);
        return at + len;
    case 2:
        len = next(4) ? next(600) : next(9000);
        memset(to, "\0 a\xFF"[next(4)], len);
        return at + len;
    default: return at + infer_sample((int32_t)next(infer_more_row_count()), to, INFER_SAMPLE_SIZE);
    }
}

static size_t spoil(unsigned char *buf, size_t len) {
    size_t at = next(len + 1), size = next(9);
    if (at == len) return len;
    switch (next(5)) {
    case 0: buf[at] = (unsigned char)next(256); return len;
    case 1: buf[at] ^= (unsigned char)(1 << next(8)); return len;
    case 2: memset(buf + at, next(2) ? 0xFF : 0, len - at < size ? len - at : size); return len;
    case 3:
        size = len - at < size ? len - at : size;
        memmove(buf + at, buf + at + size, len - at - size);
        return len - size;
    default: return at;
    }
}

typedef bool test_of(const void *buf, size_t len);
static test_of *const tests[] = {
    infer_is_decided, infer_more_is_decided, infer_is_app, infer_is_archive, infer_is_audio, infer_is_book, infer_is_document,
    infer_is_font, infer_is_image, infer_is_video, infer_is_coff_i386, infer_is_coff_x64, infer_is_coff_ia64,
};

static void ask_types(const char *text, size_t size, const void *buf, size_t len) {
    char mime_type[INFER_TYPES_TEXT_SIZE], extension[INFER_TYPES_TEXT_SIZE];
    note(infer_types_get(text, size, buf, len, mime_type, sizeof mime_type, extension, sizeof extension));
    note_text(mime_type);
    note_text(extension);
    note((int64_t)infer_types_line(text, size, buf, len));
}

/* The end of the buffer as a name, which some bytes of a name may follow. */
static void ask_named(const unsigned char *buf, size_t len) {
    static const char *const ends[] = {"", ".py", ".txt", ".png", ".tar.gz", ".DOC~"};
    char name[64];
    struct infer_named_answer found;
    size_t kept = len < 16 ? len : 16;
    const char *last = ends[next(sizeof ends / sizeof *ends)];
    memcpy(name, buf + (len - kept), kept);
    memcpy(name + kept, last, strlen(last));
    infer_named(name, kept + strlen(last), buf, len, &found);
    note(infer_oddities(name, kept + strlen(last)));
    note(found.standing);
    note_text(infer_standing_text(found.standing));
    note(found.row);
    note_text(found.told.mime_type);
    note_text(found.told.extension);
    note_text(found.name.mime_type);
    note_text(found.name.extension);
    note(found.told.is_own_name + 2 * found.name.is_own_name);
}

/* A line of the buffer, by any of its forms. */
static void ask_line(const unsigned char *buf, size_t len) {
    char line[2048];
    infer_label_told told;
    infer_label_options options = {.look = (uint32_t)next(5), .form = (uint32_t)next(4), .flags = (uint32_t)next(8), .size = len};
    note((int64_t)infer_label_line(buf, len < 16 ? len : 16, buf, len, &options, &told, line, sizeof line));
    note_text(line);
    note(told.standing);
    note(told.is_known);
    note((int64_t)infer_label_write(buf, len < 16 ? len : 16, buf, len, options.look, options.form, options.flags, NULL, 0, NULL, 0, len, &told.standing, &told.is_known, NULL, 0));
    note((int64_t)infer_label_note(buf, len < 16 ? len : 16, (uint32_t)next(2), (const char *)buf, len < 16 ? len : 16, options.form, options.flags, line, sizeof line));
    note_text(line);
}

/* The buffer as MIME types, and what they make of it. */
static void ask_mime(const char *buf, size_t len) {
    static const char *const types[] = {"", "text/plain", "image/png", "audio/ogg", "text/html", "a/b;c=d", "*/*"};
    char text[INFER_MIME_SIZE];
    bool has;
    const char *type = types[next(sizeof types / sizeof *types)];
    uint32_t flags = (uint32_t)next(4);
    int32_t context = (int32_t)next(10);
    note((int64_t)infer_mime_parse(buf, len, text, sizeof text));
    note_text(text);
    note((int64_t)infer_mime_essence(buf, len, text, sizeof text));
    note((int64_t)infer_mime_extract(buf, len, text, sizeof text));
    note_text(text);
    note((int64_t)infer_mime_parameter(buf, len, "a", 1, &has, text, sizeof text));
    note(has);
    note((int64_t)infer_mime_minimize(buf, len, has, text, sizeof text));
    note(infer_mime_groups(buf, len));
    note(infer_mime_is_nosniff(buf, len) + 2 * infer_mime_is_old_server(buf, len) + 4 * infer_mime_is_blocked(buf, len, (int32_t)next(3)));
    note((int64_t)infer_mime_compute(type, strlen(type), flags, context, buf, len, text, sizeof text));
    note_text(text);
    note(infer_mime_is_decided(type, strlen(type), flags, buf, len) + 2 * infer_mime_may_be_scriptable(buf, len));
}

typedef int32_t evidence_of(const void *buf, size_t len, infer_range *ranges, size_t room, infer_needs *needs);

/* What decides, with as much room as chance gives. */
static void ask_evidence(evidence_of *evidence, const void *buf, size_t len) {
    infer_range ranges[INFER_MOST_RANGES];
    infer_needs needs;
    size_t room = (size_t)next(INFER_MOST_RANGES + 1);
    note(evidence(buf, len, ranges, room, &needs));
    note((int64_t)needs.wanted);
    note((int64_t)needs.least * 2 + needs.is_exact);
    for (size_t i = 0; i < needs.wanted && i < room; i++) {
        note((int64_t)ranges[i].place);
        note((int64_t)ranges[i].len);
        note((int64_t)ranges[i].step);
        note(ranges[i].row);
    }
}

static void ask(const void *buf, size_t len, int32_t first) {
    char text[INFER_TEXT_SIZE];
    bool is_final;
    uint32_t asked;
    size_t line, column;
    int32_t row = infer_position(buf, len), wider = infer_more_position(buf, len), rows = (int32_t)infer_more_row_count();
    note(row);
    note(wider);
    note(infer_verdict(buf, len, &is_final) * 2 + is_final);
    note(infer_position_counted(buf, len, &asked) + (int64_t)asked * 1000);
    for (size_t i = 0; i < sizeof tests / sizeof *tests; i++) note(tests[i](buf, len));
    for (int32_t i = first; i < rows; i += EVERY)
        note(infer_accepts(buf, len, i) + 2 * infer_may_become(buf, len, i) + 4 * infer_more_may_become(buf, len, i));
    note((int64_t)infer_encoding(buf, len, text, sizeof text));
    note_text(text);
    note((int64_t)infer_detect_content_type(buf, len, text, sizeof text));
    note_text(text);
    note((int64_t)infer_types_check(buf, len, &line, &column, text, sizeof text));
    note_text(text);
    note((int64_t)line);
    note((int64_t)column);
    ask_mime(buf, len);
    ask_types(types, strlen(types), buf, len);
    ask_types(buf, len, buf, len);
    ask_named(buf, len);
    ask_line(buf, len);
    ask_evidence(infer_evidence, buf, len);
    ask_evidence(infer_more_evidence, buf, len);
    note(infer_is(buf, len, infer_extension_text(row), strlen(infer_extension_text(row))));
    note(infer_is_mime(buf, len, infer_mime_type_text(row), strlen(infer_mime_type_text(row))));
}

static void ask_row(int32_t row) {
    unsigned char sample[INFER_SAMPLE_SIZE];
    char mime_type[INFER_TEXT_SIZE], extension[5], class_name[INFER_TEXT_SIZE];
    size_t len = infer_sample(row, sample, sizeof sample);
    note(infer_class(row));
    note((int64_t)infer_mime_type(row, mime_type, sizeof mime_type));
    note((int64_t)infer_extension(row, extension, sizeof extension));
    note((int64_t)infer_class_name(infer_class(row), class_name, sizeof class_name));
    note_text(mime_type);
    note_text(extension);
    note_text(class_name);
    note_text(infer_mime_type_text(row));
    note_text(infer_extension_text(row));
    note_text(infer_class_name_text(infer_class(row)));
    note(infer_is_supported(extension, strlen(extension)) + 2 * infer_is_mime_supported(mime_type, strlen(mime_type)));
    for (size_t i = 0; i < len; i++) note(sample[i]);
}

int main(int count, char **words) {
    static unsigned char made[ROOM];
    long buffers = count == 2 ? atol(words[1]) : 0;
    int32_t rows = (int32_t)infer_more_row_count();
    char version[INFER_TEXT_SIZE];
    infer_version(version, sizeof version);
    for (int32_t row = -1; row <= rows; row++) ask_row(row);
    printf("%s: %zu and %" PRId32 " rows, %016" PRIx64 "\n", version, infer_row_count(), rows, sum);
    for (long i = 0; i < buffers; i++) {
        size_t len = put(made, 0);
        while (next(2) && len < ROOM / 2) len = put(made, len);
        while (next(3)) len = spoil(made, len);
        /* Of its own length, so that a sanitizer sees what is read behind it. */
        unsigned char *buf = malloc(len ? len : 1);
        if (!buf) return 2;
        memcpy(buf, made, len);
        ask(buf, len, (int32_t)(i % EVERY));
        free(buf);
        if (i % BLOCK == BLOCK - 1) printf("%ld %016" PRIx64 "\n", i + 1, sum);
    }
    return buffers > 0 && fflush(stdout) == 0 ? 0 : 2;
}
