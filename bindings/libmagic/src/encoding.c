/* How a text is encoded. */
#include "magic_set.h"
#include <string.h>

/* The kinds of bytes that libmagic tells apart, each with those before it. */
enum kind { PLAIN, LATIN, EXTENDED, NO_TEXT };

enum { BELL = 0x07, CARRIAGE_RETURN = 0x0D, ESCAPE = 0x1B, SPACE = 0x20, DELETE = 0x7F, NEXT_LINE = 0x85, NO_BREAK_SPACE = 0xA0 };

static enum kind kind_of(unsigned char byte) {
    if (byte >= NO_BREAK_SPACE) return LATIN;
    if (byte > DELETE) return byte == NEXT_LINE ? PLAIN : EXTENDED;
    return (byte >= SPACE && byte != DELETE) || (byte >= BELL && byte <= CARRIAGE_RETURN) || byte == ESCAPE ? PLAIN : NO_TEXT;
}

/* The widest kind that stands in the bytes. */
static enum kind widest_in(const unsigned char *bytes, size_t len) {
    enum kind widest = PLAIN;
    for (size_t at = 0; at < len && widest != NO_TEXT; at++) {
        enum kind kind = kind_of(bytes[at]);
        if (kind > widest) widest = kind;
    }
    return widest;
}

static const struct {
    const char *encoding, *words;
} ENCODINGS[] = {
    {"us-ascii", "ASCII"},
    {"utf-8", "Unicode text, UTF-8"},
    {"utf-16le", "Unicode text, UTF-16, little-endian"},
    {"utf-16be", "Unicode text, UTF-16, big-endian"},
    {"iso-8859-1", "ISO-8859"},
    {"unknown-8bit", "Non-ISO extended-ASCII"},
};
enum { COUNT = sizeof ENCODINGS / sizeof ENCODINGS[0] };

const char *encoding_of(const unsigned char *bytes, size_t len) {
    static const char *const BY_KIND[] = {"us-ascii", "iso-8859-1", "unknown-8bit", "binary"};
    char known[INFER_TEXT_SIZE];
    infer_encoding(bytes, len, known, sizeof known);
    for (size_t at = 0; at < COUNT; at++)
        if (strcmp(known, ENCODINGS[at].encoding) == 0) {
            bool is_wide = strncmp(known, "utf-16", 6) == 0;
            return is_wide || memchr(bytes, DELETE, len) == NULL ? ENCODINGS[at].encoding : "binary";
        }
    return len == 0 ? "binary" : BY_KIND[widest_in(bytes, len)];
}

const char *words_of_encoding(const char *encoding) {
    for (size_t at = 0; at < COUNT; at++)
        if (strcmp(encoding, ENCODINGS[at].encoding) == 0) return ENCODINGS[at].words;
    return encoding;
}
