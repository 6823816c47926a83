/* What decided, in words. */
#include "program.h"
#include <ctype.h>
#include <string.h>

enum { USUAL_LINES = 3 };

/* What a class is called behind the name of a type. */
static const char *class_word(int32_t class_code) {
    static const char *const words_of[] = {"file", "archive", "audio file", "book", "document", "font", "image", "text", "video", "file"};
    return class_code < 0 || class_code > INFER_CUSTOM ? "file" : words_of[class_code];
}

/* The name of a type: its extension in large letters. */
static void put_type(int32_t row, struct text *lines) {
    for (const char *at = infer_extension_text(row); *at; at++) {
        char letter = (char)toupper((unsigned char)*at);
        put_bytes(lines, &letter, 1);
    }
}

static void put_bytes_of(const infer_range *range, struct text *lines) {
    put_format(lines, "%zu byte%s at %zu", range->len, range->len == 1 ? "" : "s", range->place);
    if (range->step != 1)
        put_format(lines, ", one in %zu", range->step);
}

/* Whether the row accepts by these bytes: it is the answer, or the built-in one, of which the answer may be a finer kind. */
static bool accepts(const infer_range *range, int32_t row, int32_t built_in) { return range->row >= 0 && (range->row == row || range->row == built_in); }

static void put_range(const infer_range *range, bool is_own, struct text *lines) {
    put_text(lines, "    ");
    if (is_own && infer_class(range->row) == INFER_TEXT) {
        /* It may be all of a text, which has no signature. */
        put_type(range->row, lines);
        put_text(lines, " text, by ");
        put_bytes_of(range, lines);
    } else if (is_own) {
        put_type(range->row, lines);
        put_format(lines, range->step == 1 ? " signature at %zu" : " signature, searched from %zu", range->place);
    } else if (range->row >= 0) {
        put_text(lines, "not ");
        put_type(range->row, lines);
        put_format(lines, " %s, by ", class_word(infer_class(range->row)));
        put_bytes_of(range, lines);
    } else {
        put_text(lines, "no type that begins otherwise, by ");
        put_bytes_of(range, lines);
    }
    put_text(lines, "\n");
}

/* Puts the reasons, each on a line: those of the answer, what others are ruled out by, and what is needed of the length. */
void put_reasons(const struct options *options, const void *front, size_t size, struct text *lines) {
    infer_range ranges[INFER_MOST_RANGES];
    infer_needs needs;
    bool is_built_in = options->line.look == INFER_LABEL_BUILT_IN;
    int32_t built_in = infer_position(front, size);
    int32_t row = is_built_in ? infer_evidence(front, size, ranges, INFER_MOST_RANGES, &needs) : infer_more_evidence(front, size, ranges, INFER_MOST_RANGES, &needs);
    size_t count = needs.wanted < INFER_MOST_RANGES ? needs.wanted : INFER_MOST_RANGES, told = 0;
    size_t most = options->is_whole_why ? INFER_MOST_RANGES + 1 : USUAL_LINES;
    for (int own = 1; own >= 0; own--)
        for (size_t i = 0; i < count && told < most; i++)
            if (accepts(&ranges[i], row, built_in) == own) {
                put_range(&ranges[i], own, lines);
                told++;
            }
    if (size > 0 && told < most)
        put_format(lines, "    %s %zu byte%s\n", needs.is_exact ? "just" : "at least", needs.is_exact ? size : needs.least, needs.least == 1 ? "" : "s");
}
