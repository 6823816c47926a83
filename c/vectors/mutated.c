/* Makes texts of types from the lines of a file, most with some bytes changed, and asks about each at the end of a page
 * which may not be touched. What is said of a text has to be said of its lines: all before that of the mistake describe
 * types, and that one alone has the same mistake. What is found stands in the text, or is the wider answer.
 * usage: mutated LINES [COUNT] [SEED] */
#define _GNU_SOURCE /* memmem */
#include "infer.h"
#include <stdio.h>
#include <stdlib.h>
#include <string.h>
#include <sys/mman.h>

enum { PAGE = 65536, LONGEST = 2048, MOST_LINES = 512, CHANGES = 4 };
static const char *const reasons[] = {
    "a type has an extension, a MIME type, a class, a parent and a signature", "no extension", "no MIME type", "unknown class", "no such parent",
    "quotes do not close", "a quoted text is empty", "a set does not close", "a byte that is no printable ASCII, or stands where it cannot",
    "bytes are two hexadecimal digits each", "a length is wanted, as in 14:", "a place is wanted, as in @0", "bytes are wanted", "parts overlap",
    "place past the length", "a range ends before it begins", "`and binary` is wanted, and `or` or the end behind it", "unknown relation", "the relation does not take this", "the signature ends too early",
};
static const char *const odd[] = {
    "\n", "\r\n", "\"", "{", "}", ",", ":", "@", " or ", " not ", "..", "9999999999", "00000000000000000007", "\xEF\xBB\xBF", "\x80", "#", "-", "/", " ", "\t",
};
static struct { const char *text; size_t size; } lines[MOST_LINES];
static size_t line_count;
static unsigned char *end; /* of the room, right before the page that may not be touched */
static uint64_t state;
static long wrong, described, own, found_reasons[sizeof reasons / sizeof *reasons];

static uint64_t next(void) {
    state ^= state << 13;
    state ^= state >> 7;
    state ^= state << 17;
    return state;
}

static size_t below(size_t count) { return (size_t)(next() % count); }

struct said {
    size_t size, line, column;
    char reason[INFER_TEXT_SIZE];
};

/* What the check says of a text, which it sees at the end of the room. */
static struct said check(const char *text, size_t size) {
    struct said said;
    memcpy(end - size, text, size);
    said.size = infer_types_check(end - size, size, &said.line, &said.column, said.reason, sizeof said.reason);
    return said;
}

static void wants(bool holds, const char *what, const char *text, size_t size) {
    if (holds) return;
    if (wrong++ == 0) {
        printf("%s, of ", what);
        for (size_t i = 0; i < size; i++)
            printf(text[i] >= ' ' && text[i] < 0x7F && text[i] != '\\' ? "%c" : "\\x%02x", (unsigned char)text[i]);
        putchar('\n');
    }
}

/* A few lines of the file, of which some bytes are changed, taken away or put in. */
static size_t make(char text[LONGEST]) {
    size_t size = 0;
    for (size_t count = below(4); count; count--) {
        size_t which = below(line_count);
        if (size + lines[which].size + 2 > LONGEST / 2) break;
        /* Another extension than the library's own row has, so that the answer tells which was asked. */
        if (below(2)) text[size++] = 'x';
        memcpy(text + size, lines[which].text, lines[which].size);
        size += lines[which].size;
        if (count > 1) text[size++] = '\n';
    }
    for (size_t count = below(CHANGES); count; count--) {
        size_t at = below(size + 1), left = size - at, gone = below(4) == 0 ? below(left + 1) : below(3);
        const char *more = odd[below(sizeof odd / sizeof *odd)];
        char any[2] = {(char)next(), 0};
        if (below(3) == 0) more = any;
        size_t room = *more || more == any ? (more == any ? 1 : strlen(more)) : 0;
        gone = gone > left ? left : gone;
        memmove(text + at + room, text + at + gone, left - gone);
        memcpy(text + at, more, room);
        size += room - gone;
    }
    return size;
}

static size_t reason_of(const struct said *said) {
    size_t at = 0;
    while (at < sizeof reasons / sizeof *reasons && strcmp(reasons[at], said->reason) != 0)
        at++;
    return at;
}

/* A mistake is that of its line, and all lines before it describe types. */
static void judge_mistake(const char *text, size_t size, const struct said *said) {
    const char *line = text, *stop = text + size;
    for (size_t number = 1; number < said->line; number++) {
        const char *next_end = memchr(line, '\n', (size_t)(stop - line));
        wants(next_end, "a line that is not there", text, size);
        if (!next_end) return;
        line = next_end + 1;
    }
    const char *line_end = memchr(line, '\n', (size_t)(stop - line));
    size_t len = (size_t)((line_end ? line_end : stop) - line), which = reason_of(said);
    struct said before = check(text, (size_t)(line - text)), alone = check(line, len);
    wants(said->column >= 1 && said->column <= len + 1, "a column that is not there", text, size);
    wants(which < sizeof reasons / sizeof *reasons && said->size == strlen(said->reason), "a reason that is not known", text, size);
    wants(before.size == 0 && before.line == 0 && before.column == 0, "a mistake before that line", text, size);
    wants(alone.line == 1 && alone.column == said->column && strcmp(alone.reason, said->reason) == 0, "another mistake of the line alone", text, size);
    if (which < sizeof reasons / sizeof *reasons) found_reasons[which]++;
}

static bool has(const char *text, size_t size, const char *word) { return memmem(text, size, word, strlen(word)) != NULL; }

/* What is found of a buffer is of the text, or is the wider answer. */
static void judge_answers(const char *text, size_t size) {
    char mime_type[INFER_TYPES_TEXT_SIZE], extension[INFER_TYPES_TEXT_SIZE];
    unsigned char buf[INFER_SAMPLE_SIZE];
    size_t len = infer_sample((int32_t)below(infer_more_row_count()), buf, sizeof buf);
    memcpy(end - size, text, size);
    int32_t code = infer_types_get(end - size, size, buf, len, mime_type, sizeof mime_type, extension, sizeof extension);
    int32_t wider = infer_more_position(buf, len);
    bool is_wider = code == infer_class(wider) && strcmp(mime_type, infer_mime_type_text(wider)) == 0 && strcmp(extension, infer_extension_text(wider)) == 0;
    bool is_own = code >= INFER_APP && code < INFER_CUSTOM && has(text, size, mime_type) && has(text, size, extension);
    wants(is_wider || is_own, "an answer from nowhere", text, size);
    own += !is_wider;
}

static void read_lines(const char *path) {
    static char all[1 << 20];
    FILE *file = fopen(path, "rb");
    size_t size = file ? fread(all, 1, sizeof all, file) : 0;
    if (size == 0) {
        perror(path);
        exit(2);
    }
    fclose(file);
    for (char *line = all; line_count < MOST_LINES && line < all + size; line_count++) {
        char *line_end = memchr(line, '\n', (size_t)(all + size - line));
        lines[line_count].text = line;
        lines[line_count].size = (size_t)((line_end ? line_end : all + size) - line);
        line += lines[line_count].size + 1;
    }
}

int main(int argc, char **argv) {
    static char text[LONGEST + 64];
    if (argc < 2) return fputs("usage: mutated LINES [COUNT] [SEED]\n", stderr), 2;
    long count = argc > 2 ? atol(argv[2]) : 100000;
    state = 0x9E3779B97F4A7C15 ^ (argc > 3 ? (uint64_t)atol(argv[3]) << 17 : 0);
    read_lines(argv[1]);
    end = mmap(NULL, 2 * PAGE, PROT_READ | PROT_WRITE, MAP_PRIVATE | MAP_ANONYMOUS, -1, 0);
    if (end == MAP_FAILED || mprotect(end += PAGE, PAGE, PROT_NONE) != 0) return perror("mmap"), 2;
    for (long i = 0; i < count; i++) {
        size_t size = make(text);
        struct said said = check(text, size);
        wants((said.size == 0) == (said.line == 0) && (said.size == 0) == (said.column == 0), "no place of a mistake", text, size);
        described += said.size == 0;
        if (said.size)
            judge_mistake(text, size, &said);
        else
            judge_answers(text, size);
    }
    size_t met = 0;
    for (size_t i = 0; i < sizeof reasons / sizeof *reasons; i++)
        met += found_reasons[i] > 0;
    printf("%ld texts of types, %ld describe some or none, %zu reasons met, %ld answers of them, %ld wrong\n", count, described, met, own, wrong);
    return wrong != 0;
}
