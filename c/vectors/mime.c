/* Compares what the library says of MIME types and of first bytes with what browsers' tests and other programs say.
 * usage: mime MIME_TYPES SNIFFED */
#include "data.h"
#include "infer.h"
#include <stdlib.h>
#include <string.h>

static struct tally texts = {.asks = "MIME types"}, cut = {.asks = "the same with less room"}, headers = {.asks = "headers"},
                    computed = {.asks = "computed types"}, decided = {.asks = "decided types"}, scripts = {.asks = "what may run scripts"};
/* Of so many a share is asked for. A tenth of the data has fewer. */
enum { ENOUGH = 40 };
/* How many yes of the decided types and no of what may run scripts are due, and how many came. */
static long due, told, harmless, told_harmless;

/* Bytes that JSON writes: a code point is a byte. One beyond a byte is in no token and no value, as 7F. */
static const char *read_byte(const char *at, struct buffer *to) {
    static const char names[] = "\"\\/bfnrt", bytes[] = "\"\\/\b\f\n\r\t";
    unsigned long code = (unsigned char)*at;
    const char *name = at[0] == '\\' ? strchr(names, at[1]) : NULL;
    if (name) {
        code = (unsigned char)bytes[name - names];
        at += 2;
    } else if (at[0] == '\\') {
        const char digits[] = {at[2], at[3], at[4], at[5], 0};
        code = strtoul(digits, NULL, 16);
        at += 6;
    } else {
        at++;
    }
    *lengthen(to, 1) = (unsigned char)(code > 0xFF ? 0x7F : code);
    return at;
}

/* The next text of a list, which is empty if a word as null stands there, and in `word` that word's first letter. */
static const char *read_text(const char *at, struct buffer *to, char *word) {
    to->len = 0;
    lengthen(to, 0);
    at += strspn(at, ", ");
    *word = *at;
    if (*at != '"') return at + strcspn(at, ",]");
    for (at++; *at != '"';)
        at = read_byte(at, to);
    return at + 1;
}

static bool is_white(unsigned char byte) { return byte == '\t' || byte == '\n' || byte == '\r' || byte == ' '; }

/* The texts of a list as one header, and in `count` how many there are. */
static const char *read_list(const char *at, struct buffer *to, size_t *count) {
    static struct buffer text;
    char word;
    to->len = 0;
    lengthen(to, 0);
    at += strspn(at, ", ");
    if (*at++ != '[') refuse(at, "no list");
    for (*count = 0; *at != ']'; (*count)++) {
        at = read_text(at, &text, &word);
        size_t first = 0, last = text.len;
        while (first < last && is_white(text.bytes[first])) first++;
        while (first < last && is_white(text.bytes[last - 1])) last--;
        if (*count) append(to, ", ", 2);
        append(to, text.bytes + first, last - first);
    }
    return at + 1;
}

static bool is_same(const struct buffer *text, const char *out, size_t size) {
    return size == text->len && memcmp(out, text->bytes, size) == 0 && out[size] == 0;
}

typedef size_t write_text(const void *text, size_t len, char *out, size_t size);
static size_t parse(const void *text, size_t len, char *out, size_t size) { return infer_mime_parse(text, len, out, size); }
static size_t extract(const void *text, size_t len, char *out, size_t size) { return infer_mime_extract(text, len, out, size); }

/* The text is this, whole and with less room. */
static void compare_rooms(write_text *write, const struct buffer *text, const struct buffer *answer, const char *name) {
    char out[INFER_MIME_SIZE];
    WANTS(&texts, is_same(answer, out, write(text->bytes, text->len, out, sizeof out)), "%s", name);
    for (size_t room = 0; room <= answer->len; room++) {
        memset(out, '!', sizeof out);
        bool is_told = write(text->bytes, text->len, out, room) == answer->len;
        bool is_front = room == 0 || (memcmp(out, answer->bytes, room - 1) == 0 && out[room - 1] == 0);
        WANTS(&cut, is_told && is_front && out[room] == '!', "%s with room for %zu", name, room);
    }
}

/* The essence, and whether there is a charset, as the whole text says. */
static void compare_parts(const struct buffer *text, struct buffer *answer, const char *name) {
    char out[INFER_MIME_SIZE];
    bool has;
    append(answer, "", 1);
    const char *whole = (const char *)answer->bytes;
    size_t size = infer_mime_essence((char *)text->bytes, text->len, out, sizeof out);
    WANTS(&texts, size == strcspn(whole, ";") && memcmp(out, whole, size) == 0, "the essence of %s", name);
    infer_mime_parameter((char *)text->bytes, text->len, "CharSet", 7, &has, out, sizeof out);
    const char *bare = strstr(whole, ";charset=");
    WANTS(&texts, has == (bare != NULL), "whether %s has a charset", name);
    if (bare && bare[9] != '"') WANTS(&texts, strlen(out) == strcspn(bare + 9, ";") && strncmp(out, bare + 9, strlen(out)) == 0, "the charset of %s", name);
}

static void compare_parsed(const char *inputs, const char *wanted) {
    static struct buffer text, answer;
    char word;
    read_text(inputs + 1, &text, &word);
    read_text(wanted, &answer, &word);
    compare_rooms(parse, &text, &answer, inputs);
    compare_parts(&text, &answer, inputs);
}

static void compare_groups(const char *inputs, const char *wanted) {
    static const char *const names[] = {"image", "audio or video", "font", "ZIP-based", "archive", "XML", "HTML", "scriptable", "JavaScript", "JSON"};
    static struct buffer text, name;
    uint32_t sum = 0;
    char word;
    read_text(inputs + 1, &text, &word);
    for (const char *at = wanted + 1; *at != ']';) {
        at = read_text(at, &name, &word);
        for (size_t i = 0; i < sizeof names / sizeof *names; i++)
            if (name.len == strlen(names[i]) && memcmp(name.bytes, names[i], name.len) == 0) sum |= (uint32_t)1 << i;
    }
    char out[INFER_MIME_SIZE];
    WANTS(&texts, infer_mime_essence((char *)text.bytes, text.len, out, sizeof out) != 0, "%s is no MIME type", inputs);
    WANTS(&texts, infer_mime_groups((char *)text.bytes, text.len) == sum, "the groups of %s", inputs);
}

static void compare_minimal(const char *inputs, const char *wanted) {
    static struct buffer text, supported, answer;
    char essence[INFER_MIME_SIZE], out[INFER_MIME_SIZE], word;
    size_t count;
    const char *at = read_text(inputs + 1, &text, &word);
    read_list(at, &supported, &count);
    append(&supported, "", 1);
    infer_mime_essence((char *)text.bytes, text.len, essence, sizeof essence);
    read_text(wanted, &answer, &word);
    size_t size = infer_mime_minimize((char *)text.bytes, text.len, strstr((char *)supported.bytes, essence) != NULL, out, sizeof out);
    WANTS(&texts, is_same(&answer, out, size), "what %s is taken for", inputs);
}

static void compare_nosniff(const char *inputs, const char *wanted) {
    static struct buffer value;
    size_t count;
    read_list(inputs, &value, &count);
    WANTS(&headers, infer_mime_is_nosniff((char *)value.bytes, value.len) == (*wanted == 't'), "%s", inputs);
}

static void compare_extracted(const char *inputs, const char *wanted) {
    static struct buffer values, answer;
    size_t count;
    char word;
    read_list(inputs, &values, &count);
    read_text(wanted, &answer, &word);
    compare_rooms(extract, &values, &answer, inputs);
}

/* The value forbids to sniff if its first piece does, and says what the last piece does that says a MIME type. */
static void compare_split(const char *inputs, const char *wanted) {
    static struct buffer value, piece;
    char said[INFER_MIME_SIZE] = "", out[INFER_MIME_SIZE], word;
    read_text(inputs + 1, &value, &word);
    const bool is_nosniff = infer_mime_is_nosniff((char *)value.bytes, value.len);
    for (const char *at = wanted + 1; *at != ']';) {
        const bool is_first = at == wanted + 1;
        at = read_text(at, &piece, &word);
        if (is_first) WANTS(&headers, infer_mime_is_nosniff((char *)piece.bytes, piece.len) == is_nosniff, "the first piece of %s", inputs);
        if (infer_mime_essence((char *)piece.bytes, piece.len, out, sizeof out) && strcmp(out, "*/*") != 0) strcpy(said, out);
    }
    infer_mime_extract((char *)value.bytes, value.len, out, sizeof out);
    WANTS(&headers, strlen(said) == strcspn(out, ";") && strncmp(out, said, strlen(said)) == 0, "the pieces of %s", inputs);
}

static int32_t destination(const struct buffer *name) {
    static const char *const scripts[] = {"audioworklet", "paintworklet", "script", "serviceworker", "sharedworker", "worker"};
    for (size_t i = 0; i < sizeof scripts / sizeof *scripts; i++)
        if (name->len == strlen(scripts[i]) && memcmp(name->bytes, scripts[i], name->len) == 0) return INFER_MIME_SCRIPT;
    return name->len == 5 && memcmp(name->bytes, "style", 5) == 0 ? INFER_MIME_STYLE : INFER_MIME_OTHER;
}

static void compare_blocked(const char *inputs, const char *wanted) {
    static struct buffer options, types, name;
    size_t count;
    char word;
    const char *at = read_list(read_list(inputs + 1, &options, &count), &types, &count);
    read_text(at, &name, &word);
    bool is_blocked = infer_mime_is_nosniff((char *)options.bytes, options.len) && infer_mime_is_blocked((char *)types.bytes, types.len, destination(&name));
    WANTS(&headers, is_blocked == (*wanted == 't'), "%s", inputs);
}

/* What the library computes, with each number of a context that is none. */
static void compare_computed(const struct buffer *type, uint32_t flags, int32_t context, const struct buffer *data, const char *wanted, const char *name) {
    static struct buffer answer;
    char out[INFER_MIME_SIZE], word;
    read_text(wanted, &answer, &word);
    /* No rule tells a type. */
    if (answer.len == 1 && *answer.bytes == '-') answer.len = 0;
    size_t size = infer_mime_compute((char *)type->bytes, type->len, flags, context, data->bytes, data->len, out, sizeof out);
    WANTS(&computed, is_same(&answer, out, size), "%s: %s", name, out);
    if (context != INFER_MIME_IN_PAGE) return;
    size = infer_mime_compute((char *)type->bytes, type->len, flags, INT32_MIN, data->bytes, data->len, out, sizeof out);
    WANTS(&computed, is_same(&answer, out, size), "%s in no context", name);
}

/* An archive is told of a page of which nothing is known, and none where none is due: no rule before those of archives accepts what
 * they do. */
static void compare_archive(const struct buffer *data, const char *wanted) {
    static const char *const archives[] = {"application/x-gzip", "application/zip", "application/x-rar-compressed"};
    char out[INFER_MIME_SIZE];
    if (strcmp(wanted, "\"-\"") != 0) {
        static const struct buffer none = {0};
        compare_computed(&none, 0, INFER_MIME_IN_PAGE, data, wanted, "archive");
        return;
    }
    infer_mime_compute("", 0, 0, INFER_MIME_IN_PAGE, data->bytes, data->len, out, sizeof out);
    for (size_t i = 0; i < sizeof archives / sizeof *archives; i++)
        WANTS(&computed, strcmp(out, archives[i]) != 0, "no archive, but %s", out);
}

/* A yes is never wrong, and three of four that are due come. */
static void compare_decided(const struct buffer *type, uint32_t flags, const struct buffer *data, bool wanted, const char *name) {
    bool is = infer_mime_is_decided((char *)type->bytes, type->len, flags, data->bytes, data->len);
    due += wanted;
    told += is;
    WANTS(&decided, wanted || !is, "%s", name);
}

/* A no is never wrong, and three of four that are due come. */
static void compare_scriptable(const struct buffer *data, bool wanted, const char *name) {
    bool may_be = infer_mime_may_be_scriptable(data->bytes, data->len);
    harmless += !wanted;
    told_harmless += !may_be;
    WANTS(&scripts, may_be || !wanted, "%s", name);
}

static int32_t context_named(const struct buffer *name) {
    static const char *const names[] = {"browsing", "image", "audio or video", "font", "plugin", "style", "script", "text track", "cache manifest"};
    int32_t i = 0;
    while (name->len != strlen(names[i]) || memcmp(name->bytes, names[i], name->len) != 0)
        i++;
    return i;
}

static void compare_sniffed(const char *function, const char *inputs, const struct buffer *data, const char *wanted) {
    static struct buffer type, name;
    static unsigned char plain[] = "text/plain";
    static const struct buffer none = {0}, text = {.bytes = plain, .len = sizeof plain - 1};
    char word, forbids, is_old;
    if (strcmp(function, "unknown") == 0) return compare_computed(&none, inputs[1] == 't' ? 0 : INFER_MIME_NO_SNIFF, INFER_MIME_IN_PAGE, data, wanted, inputs);
    if (strcmp(function, "text_or_binary") == 0) return compare_computed(&text, INFER_MIME_OLD_SERVER, INFER_MIME_IN_PAGE, data, wanted, function);
    if (strcmp(function, "image") == 0) return compare_computed(&none, 0, INFER_MIME_IN_IMAGE, data, wanted, function);
    if (strcmp(function, "audio_video") == 0) return compare_computed(&none, 0, INFER_MIME_IN_AUDIO_VIDEO, data, wanted, function);
    if (strcmp(function, "font") == 0) return compare_computed(&none, 0, INFER_MIME_IN_FONT, data, wanted, function);
    if (strcmp(function, "archive") == 0) return compare_archive(data, wanted);
    if (strcmp(function, "may_be_scriptable") == 0) return compare_scriptable(data, *wanted == 't', inputs);
    const char *at = read_text(inputs + 1, &name, &word);
    if (strcmp(function, "apache_bug") == 0) {
        WANTS(&headers, infer_mime_is_old_server((char *)name.bytes, name.len) == (*wanted == 't'), "%s", inputs);
        return;
    }
    at = read_text(at, &type, &forbids);
    if (strcmp(function, "context") == 0) return compare_computed(&type, 0, context_named(&name), data, wanted, inputs);
    read_text(at, &type, &is_old);
    uint32_t flags = (forbids == 't' ? INFER_MIME_NO_SNIFF : 0) | (is_old == 't' ? INFER_MIME_OLD_SERVER : 0);
    if (strcmp(function, "compute") == 0) return compare_computed(&name, flags, INFER_MIME_IN_PAGE, data, wanted, inputs);
    if (strcmp(function, "decided") == 0) return compare_decided(&name, flags, data, *wanted == 't', inputs);
    refuse(function, "no such question");
}

static void compare_typed(const char *function, const char *inputs, const char *wanted) {
    if (strcmp(function, "parse") == 0) return compare_parsed(inputs, wanted);
    if (strcmp(function, "groups") == 0) return compare_groups(inputs, wanted);
    if (strcmp(function, "minimize") == 0) return compare_minimal(inputs, wanted);
    if (strcmp(function, "nosniff") == 0) return compare_nosniff(inputs, wanted);
    if (strcmp(function, "blocked") == 0) return compare_blocked(inputs, wanted);
    if (strcmp(function, "extract") == 0) return compare_extracted(inputs, wanted);
    if (strcmp(function, "split") == 0) return compare_split(inputs, wanted);
    refuse(function, "no such question");
}

int main(int argc, char **argv) {
    if (argc != 3) return 2;
    static struct table typed, sniffed;
    static struct buffer data;
    typed = read_table(argv[1], 3);
    for (size_t i = 0; i < typed.count; i++) {
        char *const *at = typed.lines[i].fields;
        compare_typed(at[0], at[1], at[2]);
    }
    sniffed = read_table(argv[2], 4);
    for (size_t i = 0; i < sniffed.count; i++) {
        char *const *at = sniffed.lines[i].fields;
        decode(&data, at[2]);
        compare_sniffed(at[0], at[1], &data, at[3]);
    }
    WANTS(&decided, due < ENOUGH || told >= due - due / 4, "%ld yes of %ld", told, due);
    WANTS(&scripts, harmless < ENOUGH || told_harmless >= harmless - harmless / 4, "%ld no of %ld", told_harmless, harmless);
    const struct tally tallies[] = {texts, cut, headers, computed, decided, scripts};
    return report(tallies, sizeof tallies / sizeof *tallies) != 0;
}
