/* Compares an answer of every function with a constant, and counts the differences. */
#include "infer.h"
#include <stdio.h>
#include <string.h>

static int compared, differing;

static void same(const char *what, long got, long wanted) {
    compared++;
    if (got != wanted) {
        differing++;
        printf("%s: %ld in place of %ld\n", what, got, wanted);
    }
}

#define JPEG "\xFF\xD8\xFF\xAA", 4

/* The number of the row that answers for this buffer, which is not written here: it changes with the versions. */
static int32_t jpeg(void) { return infer_position(JPEG); }
static int32_t last(void) { return (int32_t)infer_row_count() - 1; }
/* The last of all rows. */
static int32_t last_of_all(void) { return (int32_t)infer_more_row_count() - 1; }

typedef size_t text_of(int32_t number, char *out, size_t size);
typedef bool test_of(const void *buf, size_t len);

/* Whether the text is `wanted`, whole, and cut at each size, with a zero, and with nothing written after it. */
static void text(const char *what, text_of *write, int32_t number, const char *wanted) {
    size_t len = strlen(wanted);
    char out[96];
    for (size_t size = 0; size <= len + 2; size++) {
        size_t kept = size ? (len < size ? len : size - 1) : 0;
        memset(out, '.', sizeof out);
        same(what, (long)write(number, out, size), (long)len);
        same(what, memcmp(out, wanted, kept), 0);
        same("its zero", out[kept], size ? 0 : '.');
        same("the byte after it", out[size ? kept + 1 : 0], '.');
    }
    same("text into nothing", (long)write(number, NULL, 0), (long)len);
}

static size_t version(int32_t number, char *out, size_t size) { return (void)number, infer_version(out, size); }

static void texts(void) {
    char made[32];
    text("MIME type", infer_mime_type, jpeg(), "image/jpeg");
    text("extension", infer_extension, jpeg(), "jpg");
    text("extension of the last built-in row", infer_extension, last(), "sh");
    text("extension of the first further row", infer_extension, last() + 1, "o");
    text("MIME type of the last row", infer_mime_type, last_of_all(), "text/plain");
    text("MIME type of row -1", infer_mime_type, -1, "");
    text("MIME type of no row", infer_mime_type, last_of_all() + 1, "");
    text("extension of the least number", infer_extension, INT32_MIN, "");
    text("extension of the greatest number", infer_extension, INT32_MAX, "");
    text("version", version, 0, INFER_VERSION);
    snprintf(made, sizeof made, "%d.%d.%d", INFER_VERSION_MAJOR, INFER_VERSION_MINOR, INFER_VERSION_PATCH);
    same("version of the macros", strcmp(made, INFER_VERSION), 0);
}

typedef const char *own_text_of(int32_t number);
typedef void find_text(int32_t number, struct infer_text *out);

/* Whether the library's own text is the one that is written, with its zero, and stands in one place. */
static void own_text(own_text_of *own, find_text *find, text_of *write, int32_t number) {
    char written[INFER_TEXT_SIZE];
    struct infer_text found = {"", 1};
    write(number, written, sizeof written);
    same("a text of the library", strcmp(own(number), written), 0);
    find(number, &found);
    same("its place", found.bytes == own(number), true);
    same("its size", (long)found.size, (long)strlen(written) + 1);
}

static void own_texts(void) {
    const int32_t none[] = {INT32_MIN, -2, -1, last_of_all() + 1, INT32_MAX};
    for (int32_t row = 0; row <= last_of_all(); row++) {
        own_text(infer_mime_type_text, infer_find_mime_type, infer_mime_type, row);
        own_text(infer_extension_text, infer_find_extension, infer_extension, row);
    }
    for (size_t i = 0; i < sizeof none / sizeof *none; i++) {
        own_text(infer_mime_type_text, infer_find_mime_type, infer_mime_type, none[i]);
        own_text(infer_extension_text, infer_find_extension, infer_extension, none[i]);
        own_text(infer_class_name_text, infer_find_class_name, infer_class_name, none[i]);
    }
    for (int32_t code = INFER_APP - 1; code <= INFER_CUSTOM + 1; code++)
        own_text(infer_class_name_text, infer_find_class_name, infer_class_name, code);
    same("MIME type of its own", strcmp(infer_mime_type_text(jpeg()), "image/jpeg"), 0);
    same("extension of its own", strcmp(infer_extension_text(jpeg()), "jpg"), 0);
    same("class name of its own", strcmp(infer_class_name_text(INFER_IMAGE), "image"), 0);
}

static void class_names(void) {
    static const char *const names[] = {"app", "archive", "audio", "book", "doc", "font", "image", "text", "video", "custom"};
    for (int32_t code = INFER_APP; code <= INFER_CUSTOM; code++)
        text("class name", infer_class_name, code, names[code]);
    text("name of no class", infer_class_name, INFER_NO_ROW, "");
    text("name of class 10", infer_class_name, 10, "");
    text("name of the least number", infer_class_name, INT32_MIN, "");
}

static void encoded(const char *name, const char *buf, size_t len) {
    char out[INFER_TEXT_SIZE];
    same(name, (long)infer_encoding(buf, len, out, sizeof out), (long)strlen(name));
    same(name, strcmp(out, name), 0);
}

static void content_type(const char *type, const char *buf, size_t len) {
    char out[INFER_TEXT_SIZE];
    same(type, (long)infer_detect_content_type(buf, len, out, sizeof out), (long)strlen(type));
    same(type, strcmp(out, type), 0);
}

static void content_types(void) {
    content_type("text/plain; charset=utf-8", NULL, 0);
    content_type("text/html; charset=utf-8", "\n <p>", 5);
    content_type("text/plain; charset=utf-8", "\n <p", 4);
    content_type("video/mp4", "\0\0\0\x0C" "ftypmp42", 12);
    content_type("application/octet-stream", "\0\0\0\x08" "ftypmp42", 12);
}

static void mime_type(const char *said, const char *type) {
    char out[INFER_MIME_SIZE];
    same(said, (long)infer_mime_parse(said, strlen(said), out, sizeof out), (long)strlen(type));
    same(said, strcmp(out, type), 0);
}

/* MIME types of texts; the longest of which there is room for, and one more; and the most parameters, and one more. */
static void mime_types(void) {
    static const char text[] = "Text/JSON; Charset=\"UTF\\-8\"; b=\" \"";
    static char made[8192];
    char out[INFER_MIME_SIZE];
    bool has = false;
    mime_type("Text/HTML; charset = x;a= b", "text/html;a=\" b\"");
    mime_type("text", "");
    same("its essence", (long)infer_mime_essence(text, sizeof text - 1, out, sizeof out) + strcmp(out, "text/json"), 9);
    same("its charset", (long)infer_mime_parameter(text, sizeof text - 1, "CHARSET", 7, &has, out, sizeof out) + strcmp(out, "UTF-8"), 5);
    same("it has one", has, true);
    same("no parameter", (long)infer_mime_parameter(text, sizeof text - 1, "c", 1, &has, out, sizeof out), 0);
    same("it has none", has || *out, false);
    same("what it is for", (long)infer_mime_minimize(text, sizeof text - 1, false, out, sizeof out) + strcmp(out, "application/json"), 16);
    same("its groups", infer_mime_groups(text, sizeof text - 1), INFER_MIME_JSON);
    same("groups of a drawing", infer_mime_groups("image/svg+xml", 13), INFER_MIME_IMAGE | INFER_MIME_XML | INFER_MIME_SCRIPTABLE);
    same("groups of nothing", infer_mime_groups(NULL, 0), 0);
    memset(made, 'a', sizeof made);
    made[1] = '/';
    same("a long MIME type", (long)infer_mime_parse(made, INFER_MIME_SIZE - 1, out, sizeof out), INFER_MIME_SIZE - 1);
    same("a longer one", (long)infer_mime_parse(made, INFER_MIME_SIZE, out, sizeof out) + *out, 0);
    same("a long essence", (long)infer_mime_essence(made, INFER_MIME_SIZE - 1, out, sizeof out), INFER_MIME_SIZE - 1);
    same("a longer one", (long)infer_mime_essence(made, INFER_MIME_SIZE, out, sizeof out) + *out, 0);
    memcpy(made, "a/a;", 4);
    made[5] = '=';
    same("a long value", (long)infer_mime_parameter(made, 6 + INFER_MIME_SIZE - 1, "a", 1, &has, out, sizeof out), INFER_MIME_SIZE - 1);
    same("a longer one", (long)infer_mime_parameter(made, 6 + INFER_MIME_SIZE, "a", 1, &has, out, sizeof out) + *out, 0);
    same("it has it", has, true);
    memset(made, ';', sizeof made);
    memcpy(made, "a/a", 3);
    same("semicolons alone", (long)infer_mime_parse(made, sizeof made, out, sizeof out), 3);
    for (size_t at = 3; at + 3 <= sizeof made; at += 3) memcpy(made + at, ";=b", 3);
    same("many that do not count", (long)infer_mime_parse(made, 3 + 3 * 256, out, sizeof out), 3);
    same("too many", (long)infer_mime_parse(made, 3 + 3 * 257, out, sizeof out) + *out, 0);
}

static void extracted(const char *values, const char *type) {
    char out[INFER_MIME_SIZE];
    same(values, (long)infer_mime_extract(values, strlen(values), out, sizeof out), (long)strlen(type));
    same(values, strcmp(out, type), 0);
}

/* What values say together; and the longest of which there is room for with a charset that is carried, and one more. */
static void values(void) {
    static const char charset[] = ";charset=x, a/";
    static char made[2 * INFER_MIME_SIZE];
    char out[INFER_MIME_SIZE];
    extracted("text/html;charset=gbk, text/html", "text/html;charset=gbk");
    extracted("text/html;charset=gbk;a=b, text/plain, Text/HTML;a=b", "text/html;a=b");
    extracted("a/b;charset=\"x y\", a/b;c=d, a/b", "a/b;charset=\"x y\"");
    extracted("text/html, */*, x", "text/html");
    extracted("*/*", "");
    const size_t long_name = INFER_MIME_SIZE - 1 - 2 - 10;
    for (size_t more = 0; more < 2; more++) {
        size_t size = long_name + more;
        memset(made, 'a', sizeof made);
        made[1] = '/';
        memcpy(made + 2 + size, charset, sizeof charset - 1);
        same("a long one", (long)infer_mime_extract(made, 2 + size + sizeof charset - 1 + size, out, sizeof out), more ? 0 : INFER_MIME_SIZE - 1);
    }
    memset(made, ';', sizeof made);
    memcpy(made, "a/a", 3);
    same("semicolons alone", (long)infer_mime_extract(made, sizeof made, out, sizeof out), 3);
    for (size_t at = 3; at + 3 <= sizeof made; at += 3) memcpy(made + at, ";=b", 3);
    same("many that do not count", (long)infer_mime_extract(made, 3 + 3 * 256, out, sizeof out), 3);
    same("too many", (long)infer_mime_extract(made, 3 + 3 * 257, out, sizeof out) + *out, 0);
}

static void computed(const char *type, uint32_t flags, int32_t context, const char *buf, size_t len, const char *wanted) {
    char out[INFER_MIME_SIZE];
    same(wanted, (long)infer_mime_compute(type, strlen(type), flags, context, buf, len, out, sizeof out), (long)strlen(wanted));
    same(wanted, strcmp(out, wanted), 0);
}

static void sniffed(void) {
    const uint32_t both = INFER_MIME_NO_SNIFF | INFER_MIME_OLD_SERVER;
    computed("", 0, INFER_MIME_IN_PAGE, "<p>", 3, "text/html");
    computed("", INFER_MIME_NO_SNIFF, INFER_MIME_IN_PAGE, "<p>", 3, "text/plain");
    computed("Image/PNG;a=b", 0, INFER_MIME_IN_PAGE, "GIF89a", 6, "image/gif");
    computed("Image/PNG;a=b", INFER_MIME_NO_SNIFF, INFER_MIME_IN_PAGE, "GIF89a", 6, "image/png;a=b");
    computed("text/plain", INFER_MIME_OLD_SERVER, INFER_MIME_IN_PAGE, "\1", 1, "application/octet-stream");
    computed("text/plain", both, INFER_MIME_IN_PAGE, "\1", 1, "text/plain");
    computed("text/html", ~both, INFER_MIME_IN_PAGE, "\1", 1, "text/html");
    computed("text/html", 0, INFER_MIME_IN_IMAGE, "GIF89a", 6, "image/gif");
    computed("", 0, INFER_MIME_IN_AUDIO_VIDEO, "OggS", 5, "application/ogg");
    computed("", 0, INFER_MIME_IN_FONT, "OTTO", 4, "font/otf");
    computed("", 0, INFER_MIME_IN_FONT, NULL, 0, "");
    computed("", 0, INFER_MIME_IN_PLUGIN, NULL, 0, "application/octet-stream");
    computed("", 0, INFER_MIME_IN_STYLE, "a", 1, "");
    computed("text/css", 0, INFER_MIME_IN_SCRIPT, "a", 1, "text/css");
    computed("", 0, INFER_MIME_IN_TEXT_TRACK, "a", 1, "text/vtt");
    computed("", 0, INFER_MIME_IN_CACHE_MANIFEST, "a", 1, "text/cache-manifest");
    computed("image/png", 0, INFER_MIME_IN_CACHE_MANIFEST + 1, "GIF89a", 6, "image/gif");
    same("an image is decided", infer_mime_is_decided("", 0, 0, "GIF89a", 6), true);
    same("white space is not", infer_mime_is_decided("", 0, 0, " ", 1), false);
    same("what is told is", infer_mime_is_decided("text/html", 9, 0, " ", 1), true);
    same("a tag may run scripts", infer_mime_may_be_scriptable(" <scr", 5), true);
    same("an image may not", infer_mime_may_be_scriptable("GIF89a", 6), false);
    same("sniffing is forbidden", infer_mime_is_nosniff("NoSniff , x", 11), true);
    same("sniffing is not", infer_mime_is_nosniff("x, nosniff", 10), false);
    same("a script is blocked", infer_mime_is_blocked("text/json", 9, INFER_MIME_SCRIPT), true);
    same("a style is not", infer_mime_is_blocked("text/html, text/css", 19, INFER_MIME_STYLE), false);
    same("a page is not", infer_mime_is_blocked("", 0, INFER_MIME_OTHER) || infer_mime_is_blocked("", 0, -1), false);
    same("an old server", infer_mime_is_old_server("text/plain; charset=UTF-8", 25), true);
    same("another", infer_mime_is_old_server("text/plain; charset=utf-8", 25), false);
}

static void encodings(void) {
    encoded("us-ascii", "plain\n", 6);
    encoded("utf-8", "caf\xC3\xA9", 5);
    encoded("utf-8", "caf\xC3", 4);
    encoded("utf-16le", "\xFF\xFE" "a", 4);
    encoded("utf-16be", "\xFE\xFF\0a", 4);
    encoded("", "caf\xE9 ", 5);
    encoded("", "a\0b", 3);
    encoded("", NULL, 0);
}

/* The class of the row that answers for the buffer, and its extension. */
static void typed(const char *extension, int32_t code, const char *buf, size_t len) {
    char out[16];
    int32_t row = infer_position(buf, len);
    same(extension, infer_class(row), code);
    infer_extension(row, out, sizeof out);
    same(extension, strcmp(out, extension), 0);
}

static void classes(void) {
    typed("wasm", INFER_APP, "\0asm\1\0\0\0", 8);
    typed("bz2", INFER_ARCHIVE, "BZh", 3);
    typed("flac", INFER_AUDIO, "fLaC", 4);
    typed("otf", INFER_FONT, "OTTO\0", 5);
    typed("jpg", INFER_IMAGE, JPEG);
    typed("sh", INFER_TEXT, "#!\0", 3);
    typed("flv", INFER_VIDEO, "FLV\1", 4);
    typed("docx", INFER_DOC, "PK\3\4\0\0\0\0\0\0\0\0\0\0\0\0\0\0\0\0\0\0\0\0\0\0\0\0\0\0word/", 35);
    typed("epub", INFER_BOOK, "PK\3\4\0\0\0\0\0\0\0\0\0\0\0\0\0\0\0\0\0\0\0\0\0\0\0\0\0\0mimetypeapplication/epub+zip", 58);
    same("class of row -1", infer_class(-1), INFER_NO_ROW);
    same("class of the first further row", infer_class(last() + 1), INFER_APP);
    same("class of the last row", infer_class(last_of_all()), INFER_TEXT);
    same("class of no row", infer_class(last_of_all() + 1), INFER_NO_ROW);
}

static void answers(void) {
    uint32_t asked = 99;
    same("position of nothing", infer_position(NULL, 0), -1);
    same("row count", (long)infer_row_count(), INFER_ROWS);
    same("count of all rows", (long)infer_more_row_count(), INFER_ROWS + INFER_FURTHER_ROWS);
    same("counted", infer_position_counted(JPEG, &asked), jpeg());
    /* A book of Mobipocket may begin with any byte, and its row comes before. */
    same("rows asked", asked, 2);
    same("counted of nothing", infer_position_counted(NULL, 0, &asked), -1);
    same("rows asked", asked, 0);
    same("accepts", infer_accepts(JPEG, jpeg()), true);
    same("accepts of another row", infer_accepts(JPEG, jpeg() + 1), false);
    same("accepts of row -1", infer_accepts(JPEG, -1), false);
    same("accepts of no row", infer_accepts(JPEG, last_of_all() + 1), false);
    same("accepts nothing", infer_accepts(NULL, 0, jpeg()), false);
    /* "MZ" fits the rows of programs and of their libraries, of which the first is the answer. */
    same("accepts of the answer", infer_accepts("MZ", 2, infer_position("MZ", 2)), true);
    same("accepts of a row after it", infer_accepts("MZ", 2, infer_position("MZ", 2) + 1), true);
}

/* `is_final` is written whatever stood there. */
static void verdict(const char *what, const char *buf, size_t len, int32_t row, int is_final) {
    bool got;
    memset(&got, 0xA5, sizeof got);
    same(what, infer_verdict(buf, len, &got), row);
    unsigned char stored;
    memcpy(&stored, &got, 1);
    same(what, stored, is_final);
}

static void verdicts(void) {
    static char front[1024] = "\xFF\xD8\xFF", spaces[1024], page[1024] = "<html>";
    memset(spaces, ' ', sizeof spaces);
    verdict("verdict of nothing", NULL, 0, -1, 0);
    verdict("verdict of 1023 bytes", front, 1023, jpeg(), 0);
    verdict("verdict of 1024 bytes", front, 1024, jpeg(), 1);
    verdict("verdict of spaces", spaces, 1024, -1, 0);
    verdict("verdict of a page", page, 1024, infer_position("<html>", 6), 1);
}

static void decided(void) {
    /* A book of Mobipocket has its mark at 60, and its row comes before. */
    static char front[61] = "\xFF\xD8\xFF";
    same("decided of nothing", infer_is_decided(NULL, 0), false);
    same("decided of 60 bytes", infer_is_decided(front, 60), false);
    same("decided of 61 bytes", infer_is_decided(front, 61), true);
    same("decided of a program", infer_is_decided("MZ", 2), true);
    same("nothing may become", infer_may_become(NULL, 0, jpeg()), true);
    same("a front may become", infer_may_become("\xFF\xD8", 2, jpeg()), true);
    same("the whole may become", infer_may_become(JPEG, jpeg()), true);
    same("another front may become", infer_may_become("\xFF\xD7", 2, jpeg()), false);
    same("may become row -1", infer_may_become(NULL, 0, -1), false);
    same("may become a further row", infer_may_become(NULL, 0, last() + 1), false);
    same("may become no row", infer_may_become(NULL, 0, last_of_all() + 1), false);
}

/* What the wider answer shows, and whether the signature of its row accepts the buffer. */
static void wider(const char *extension, bool is_further, const char *buf, size_t len) {
    int32_t row = infer_more_position(buf, len);
    same(extension, strcmp(infer_extension_text(row), extension), 0);
    same(extension, row > last(), is_further);
    same(extension, infer_accepts(buf, len, row), true);
}

static void widers(void) {
    static const char object[64] = "\x7F" "ELF\2\1\1\0\0\0\0\0\0\0\0\0\1\0";
    static const char other[64] = "\x7F" "ELF";
    static const char zone[44] = "TZif2";
    same("wider answer of nothing", infer_more_position(NULL, 0), -1);
    same("wider answer of an image", infer_more_position(JPEG), jpeg());
    wider("jpg", false, JPEG);
    wider("elf", false, other, sizeof other);
    wider("o", true, object, sizeof object);
    wider("tzif", true, zone, sizeof zone);
    same("answer where there was none", infer_position(zone, sizeof zone), -1);
    same("accepts of another further row", infer_accepts(zone, sizeof zone, infer_more_position(zone, sizeof zone) + 1), false);
    /* A program header may come that asks for no interpreter; with another type than 3 none makes it a shared object. */
    static const char shared[53] = "\x7F" "ELF\2\1\1\0\0\0\0\0\0\0\0\0\3\0";
    same("wider decided of nothing", infer_more_is_decided(NULL, 0), false);
    same("wider decided of a program", infer_more_is_decided("\0asm\1\0\0", 8), true);
    same("wider decided of one that may become a kernel", infer_more_is_decided("MZ", 2), false);
    same("decided of a front of a shared object", infer_is_decided(shared, sizeof shared), true);
    same("wider decided of it", infer_more_is_decided(shared, sizeof shared), false);
    same("wider decided of an object", infer_more_is_decided(object, sizeof object), true);
    int32_t o = infer_more_position(object, sizeof object);
    same("may become an object", infer_more_may_become(object, 16, o), true);
    same("may become none", infer_more_may_become(shared, sizeof shared, o), false);
    /* No clause says that a row with a relation is ever told not to come. */
    int32_t json = infer_more_position("{\"a\": 1}", 8), svg = infer_more_position("<svg/>", 6);
    same("may become JSON", infer_more_may_become("{", 1, json), true);
    same("may become no JSON", infer_more_may_become("<", 1, json), false);
    same("may become a drawing", infer_more_may_become("<", 1, svg), true);
    same("may become no drawing", infer_more_may_become("{", 1, svg), false);
    same("may become a built-in row", infer_more_may_become("\xFF\xD8", 2, jpeg()), true);
    same("more may become row -1", infer_more_may_become(NULL, 0, -1), false);
    same("more may become the last row", infer_more_may_become(NULL, 0, last_of_all()), true);
    same("more may become no row", infer_more_may_become(NULL, 0, last_of_all() + 1), false);
}

typedef int32_t evidence_of(const void *buf, size_t len, infer_range *ranges, size_t room, infer_needs *needs);

/* What decides, as a text: each range, with its step unless that is 1, and the extension of its row; and the length that is
 * needed, with a plus behind it if a greater one is enough. With less room the first ranges are written, and nothing behind them. */
static void evidence(const char *wanted, evidence_of *ask, const void *buf, size_t len) {
    char text[4096];
    size_t size = 0;
    infer_range all[INFER_MOST_RANGES], some[INFER_MOST_RANGES];
    infer_needs needs, others;
    memset(&needs, 0xA5, sizeof needs);
    int32_t row = ask(buf, len, all, INFER_MOST_RANGES, &needs);
    same(wanted, row, ask == infer_evidence ? infer_position(buf, len) : infer_more_position(buf, len));
    for (size_t i = 0; i < needs.wanted; i++) {
        size += (size_t)snprintf(text + size, sizeof text - size, "%zu@%zu", all[i].len, all[i].place);
        if (all[i].step != 1) size += (size_t)snprintf(text + size, sizeof text - size, "/%zu", all[i].step);
        size += (size_t)snprintf(text + size, sizeof text - size, " %s, ", all[i].row < 0 ? "-" : infer_extension_text(all[i].row));
    }
    snprintf(text + size, sizeof text - size, "%zu%s", needs.least, needs.is_exact ? "" : "+");
    same(text, strcmp(text, wanted), 0);
    for (size_t room = 0; room <= needs.wanted + 1; room++) {
        const size_t written = room < needs.wanted ? room : needs.wanted;
        memset(&others, 0x5A, sizeof others);
        memset(some, '.', sizeof some);
        same(wanted, ask(buf, len, room ? some : NULL, room, &others), row);
        same("as many are wanted", others.wanted == needs.wanted && others.least == needs.least && others.is_exact == needs.is_exact, true);
        for (size_t i = 0; i < written; i++)
            same("a range", some[i].place == all[i].place && some[i].len == all[i].len && some[i].step == all[i].step && some[i].row == all[i].row, true);
        same("the byte after them", ((const char *)(some + written))[0], '.');
    }
}

static void evidences(void) {
    static const char png[300] = "\x89PNG\r\n\x1A\n";
    char ustar[300] = "\x89";
    memcpy(ustar + 257, "ustar", 5);
    evidence("0", infer_evidence, NULL, 0);
    evidence("0", infer_more_evidence, NULL, 0);
    evidence("3@0 jpg, 3", infer_evidence, JPEG);
    evidence("3@0 jpg, 1@3 jls, 3", infer_more_evidence, JPEG);
    /* 61 bytes and more have one at 60, which is no B of BOOKMOBI. */
    evidence("4@0 png, 4", infer_evidence, png, 60);
    evidence("4@0 png, 1@60 mobi, 4+", infer_evidence, png, 61);
    evidence("4@0 png, 1@60 mobi, 4+", infer_evidence, png, sizeof png);
    /* More chunks may always follow, of which one is that of an animated image. */
    evidence("4@0 png, 1@60 mobi, 300@0 apng, 4", infer_more_evidence, png, sizeof png);
    evidence("2@0 exe, 2+", infer_evidence, "MZ", 2);
    /* S and d are no bytes of "%PDF", so it stands nowhere. */
    evidence("2@0 ps, 5@0 heif, 2@3/4 pdf, 2", infer_evidence, "%!PS-Adobe", 10);
    evidence("5@257 tar, 1@0 -, 1@60 mobi, 1@1 png, 1@8 webp, 5@0 heif, 1@12 mov, 262+", infer_evidence, ustar, sizeof ustar);
}

/* The answer that the row is to be: that of the built-in rows, or the wider one. */
static int32_t answer(int32_t row, const void *buf, size_t len) {
    return row <= last() ? infer_position(buf, len) : infer_more_position(buf, len);
}

static void samples(void) {
    unsigned char out[INFER_SAMPLE_SIZE + 1];
    int none = 0, wrong = 0;
    for (int32_t row = 0; row <= last_of_all(); row++) {
        memset(out, '.', sizeof out);
        size_t len = infer_sample(row, out, INFER_SAMPLE_SIZE);
        none += len == 0;
        wrong += len != 0 && answer(row, out, len) != row;
        wrong += out[len] != '.';
        if (len == 0) continue;
        memset(out, '.', sizeof out);
        wrong += infer_sample(row, out, len - 1) != len || out[0] != '.';
        wrong += infer_sample(row, out, len) != len || answer(row, out, len) != row || out[len] != '.';
    }
    same("rows with no sample", none, 2);
    same("samples of another row", wrong, 0);
    same("sample", (long)infer_sample(jpeg(), out, sizeof out), 3);
    same("its bytes", memcmp(out, "\xFF\xD8\xFF", 3), 0);
    same("sample into nothing", (long)infer_sample(jpeg(), NULL, 0), 3);
    same("sample of row -1", (long)infer_sample(-1, out, sizeof out), 0);
    same("sample of a further row", (long)infer_sample(last() + 1, out, sizeof out), 53);
    same("sample of no row", (long)infer_sample(last_of_all() + 1, out, sizeof out), 0);
}

/* Types that a text describes. */
static void types(void) {
    static const char text[] = "# mine\r\nqoi image/qoi image - 14: @0 \"qoif\"\r\nmyapp application/x-my app zip 42: @30 \"manifest.my\""
                               "\nflow text/x-flow text xml root: flow or flows";
    char buf[42] = "qoif", reason[80], mime_type[256], extension[128];
    size_t line = 9, column = 9;
    same("a text of types", (long)infer_types_check(text, sizeof text - 1, &line, &column, reason, sizeof reason), 0);
    same("its line", (long)line, 0);
    same("its column", (long)column, 0);
    same("class", infer_types_get(text, sizeof text - 1, buf, 14, mime_type, sizeof mime_type, extension, sizeof extension), INFER_IMAGE);
    same("MIME type", strcmp(mime_type, "image/qoi"), 0);
    same("extension", strcmp(extension, "qoi"), 0);
    same("its line", (long)infer_types_line(text, sizeof text - 1, buf, 14), 2);
    same("no line", (long)infer_types_line(text, sizeof text - 1, buf, 13), 0);
    same("too short", infer_types_get(text, sizeof text - 1, buf, 13, mime_type, sizeof mime_type, extension, sizeof extension), INFER_NO_ROW);
    memcpy(buf, "PK\3\4", 4);
    memcpy(buf + 30, "manifest.my", 11);
    same("below zip", infer_types_get(text, sizeof text - 1, buf, 42, mime_type, 5, NULL, 0), INFER_APP);
    same("cut", strcmp(mime_type, "appl"), 0);
    same("the line below zip", (long)infer_types_line(text, sizeof text - 1, buf, 42), 3);
    static const char document[] = "<?xml version='1.0'?><flows>";
    same("below xml", infer_types_get(text, sizeof text - 1, document, sizeof document - 1, mime_type, sizeof mime_type, extension, sizeof extension), INFER_TEXT);
    same("its MIME type", strcmp(mime_type, "text/x-flow"), 0);
    same("the last line", (long)infer_types_line(text, sizeof text - 1, document, sizeof document - 1), 4);
    same("no text", infer_types_get(NULL, 0, "\377\330\377", 3, mime_type, sizeof mime_type, extension, sizeof extension), INFER_IMAGE);
    static const char open[] = "\nqoi image/qoi image - 14: @0 \"qoif";
    same("a mistake", (long)infer_types_check(open, sizeof open - 1, &line, &column, reason, sizeof reason), 19);
    same("its reason", strcmp(reason, "quotes do not close"), 0);
    same("its line", (long)line, 2);
    same("its column", (long)column, 30);
}

/* What a name and bytes tell, whatever stood in the answer. A MIME type of nothing is that there is none. */
static void named_is(const char *name, size_t name_len, const char *buf, size_t len, int32_t standing, const char *mime_type, const char *of_name) {
    struct infer_named_answer got;
    memset(&got, 0xA5, sizeof got);
    infer_named(name, name_len, buf, len, &got);
    same(name, got.standing, standing);
    same(name, got.row, infer_more_position(buf, len));
    same(name, strcmp(got.told.mime_type, mime_type), 0);
    same(name, strcmp(got.name.mime_type, of_name), 0);
}

static void names(void) {
    static const char png[] = "\x89PNG\r\n\x1A\n";
    struct infer_named_answer got;
    named_is("main.py", 7, "import os\n", 10, INFER_NAME_REFINES, "text/x-python", "text/x-python");
    named_is("main.py", 7, "#!/usr/bin/perl\n", 16, INFER_CONTRADICTS, "text/x-perl", "text/x-python");
    named_is("notes.txt", 9, "{\"a\": 1}", 8, INFER_BYTES_REFINE, "application/json", "text/plain");
    named_is("b/PHOTO.PNG~", 12, png, 8, INFER_AGREE, "image/png", "image/png");
    named_is("photo", 5, png, 8, INFER_BYTES_ALONE, "image/png", "");
    named_is("photo.png\0.txt", 14, png, 8, INFER_BYTES_ALONE, "image/png", "");
    named_is("photo.png", 9, NULL, 0, INFER_NOTHING, "", "image/png");
    named_is("photo.png", 9, "\0", 1, INFER_CONTRADICTS, "", "image/png");
    named_is("photo.png", 9, "text\n", 5, INFER_CONTRADICTS, "text/plain", "image/png");
    named_is("scene.blend", 11, "text\n", 5, INFER_BYTES_ALONE, "text/plain", "application/x-blender");
    named_is("disk.iso", 8, "\0\0\0\0", 4, INFER_NAME_ALONE, "application/x-cd-image", "application/x-cd-image");
    named_is("x.unknown", 9, "\0\1", 2, INFER_NOTHING, "", "");
    named_is(NULL, 0, NULL, 0, INFER_NOTHING, "", "");
    same("the text of a standing", strcmp(infer_standing_text(INFER_NAME_REFINES), "name refines"), 0);
    same("that of the last", strcmp(infer_standing_text(INFER_NOTHING), "nothing"), 0);
    same("that of none", strcmp(infer_standing_text(-1), "") + strcmp(infer_standing_text(INFER_NOTHING + 1), ""), 0);
    infer_named("a.dz", 4, "\x1F\x8B\x08", 3, &got);
    same("an own name", got.told.is_own_name && got.name.is_own_name, true);
    same("its extension", *got.told.extension, 0);
    infer_named("a.zip", 5, "PK\3\4", 4, &got);
    same("no own name", got.told.is_own_name || got.name.is_own_name, false);
    same("the extension of a row", strcmp(got.told.extension, "zip"), 0);
    same("that of the name", strcmp(got.name.extension, "zip"), 0);
}

static void odd_names(void) {
    same("a plain name", infer_oddities("a/photo.png", 11), 0);
    same("no name", infer_oddities(NULL, 0), 0);
    same("a control", infer_oddities("photo.png\n", 10), INFER_ODD_CONTROL);
    same("a zero", infer_oddities("photo.png\0.txt", 14), INFER_ODD_CONTROL);
    same("a mark of direction", infer_oddities("\xE2\x80\xAEgnp.exe", 10), INFER_ODD_DIRECTION);
    same("a dot at the end", infer_oddities("photo.png.", 10), INFER_ODD_END);
    same("two extensions", infer_oddities("shell.php.jpg", 13), INFER_ODD_TWO);
    same("one of two parts", infer_oddities("a.tar.gz", 8), 0);
    same("all but two extensions", infer_oddities("\x1B\xD8\x9C ", 4), INFER_ODD_CONTROL | INFER_ODD_DIRECTION | INFER_ODD_END);
    same("all but an end", infer_oddities("\x7F\xE2\x81\xA6.php.jpg", 12), INFER_ODD_CONTROL | INFER_ODD_DIRECTION | INFER_ODD_TWO);
}

/* A line that is written, and what it tells. */
static void line_is(const infer_label_options *options, const char *name, const char *buf, size_t len, int32_t standing, bool is_known, const char *wanted) {
    char line[256], cut[8];
    infer_label_told told = {99, !is_known};
    size_t size = infer_label_line(name, strlen(name), buf, len, options, &told, line, sizeof line);
    same(wanted, (long)size, (long)strlen(wanted));
    same(wanted, strcmp(line, wanted), 0);
    same(wanted, told.standing, standing);
    same(wanted, told.is_known, is_known);
    same(wanted, infer_label_line(name, strlen(name), buf, len, options, NULL, cut, sizeof cut) == size, true);
    same(wanted, strlen(cut) == 7 && strncmp(cut, wanted, 7) == 0, true);
    same(wanted, infer_label_line(name, strlen(name), buf, len, options, NULL, NULL, 0) == size, true);
}

static void lines(void) {
    infer_label_options options = {0};
    char line[64];
    int32_t standing;
    bool is_known;
    line_is(&options, "main.py", "import os\n", 10, INFER_NAME_REFINES, true, "main.py: text/x-python py, us-ascii\n");
    line_is(&options, "a.pdf", JPEG, INFER_CONTRADICTS, true, "a.pdf: image/jpeg jpg, but named as application/pdf\n");
    line_is(&options, "a\xE2\x80\x8B", "\0\1", 2, INFER_NOTHING, false, "a\\u200b: unknown\n");
    options.form = INFER_LABEL_MIME;
    line_is(&options, "a", "import os\n", 10, INFER_BYTES_ALONE, true, "a: text/plain; charset=us-ascii\n");
    options = (infer_label_options){.form = INFER_LABEL_JSON, .flags = INFER_LABEL_NO_NAME, .look = INFER_LABEL_BYTES};
    line_is(&options, "a.pdf", JPEG, -1, true, "{\"mime_type\":\"image/jpeg\",\"extension\":\"jpg\"}\n");
    options = (infer_label_options){.form = INFER_LABEL_CSV, .flags = INFER_LABEL_SIZE, .size = 4};
    line_is(&options, "=a", JPEG, INFER_BYTES_ALONE, true, "\"./=a\",image/jpeg,jpg,image,,bytes alone,,,4,,\n");
    options = (infer_label_options){.look = INFER_LABEL_BUILT_IN, .flags = INFER_LABEL_WHY};
    line_is(&options, "a", "\xFF\xD8\xFF", 3, -1, true, "a: image/jpeg jpg: FF D8 FF at 0; just 3 bytes\n");
    options = (infer_label_options){.look = INFER_LABEL_BROWSER, .content_type = "image/png", .content_type_len = 9};
    line_is(&options, "a.html", "GIF89a", 6, -1, true, "a.html: image/gif\n");
    options = (infer_label_options){.types = "own x/own app - 1: @0 6f", .types_len = 24};
    line_is(&options, "a", "o", 1, -1, true, "a: x/own own, us-ascii\n");
    same("a line by a call of its own", (long)infer_label_write("a", 1, "", 0, 0, 0, 0, NULL, 0, NULL, 0, 0, &standing, &is_known, line, sizeof line), 9);
    same("a line by a call of its own", strcmp(line, "a: empty\n"), 0);
    same("a note", (long)infer_label_note("a", 1, INFER_LABEL_KIND, "fifo", 4, INFER_LABEL_JSON, 0, line, sizeof line), 27);
    same("a note", strcmp(line, "{\"name\":\"a\",\"kind\":\"fifo\"}\n") , 0);
}

static void questions(void) {
    same("is jpg", infer_is(JPEG, "jpg", 3), true);
    same("is JPG", infer_is(JPEG, "JPG", 3), false);
    same("is no text", infer_is(JPEG, "\xFF", 1), false);
    same("is nothing", infer_is(NULL, 0, NULL, 0), false);
    same("is MIME type", infer_is_mime(JPEG, "image/jpeg", 10), true);
    same("is another MIME type", infer_is_mime(JPEG, "image/png", 9), false);
    same("supported", infer_is_supported("jpg", 3), true);
    same("not supported", infer_is_supported("txt", 3), false);
    same("MIME type supported", infer_is_mime_supported("image/jpeg", 10), true);
    same("MIME type not supported", infer_is_mime_supported("image/JPEG", 10), false);
    same("nothing supported", infer_is_supported(NULL, 0), false);
}

static void tests(void) {
    static const struct { const char *what; test_of *is; const char *buf; size_t len; } all[] = {
        {"app", infer_is_app, "MZ", 2},
        {"archive", infer_is_archive, "BZh", 3},
        {"audio", infer_is_audio, "\xFF\xFB\x90\x44", 4},
        {"book", infer_is_book, "PK\3\4\0\0\0\0\0\0\0\0\0\0\0\0\0\0\0\0\0\0\0\0\0\0\0\0\0\0mimetypeapplication/epub+zip", 58},
        {"document", infer_is_document, "PK\3\4\0\0\0\0\0\0\0\0\0\0\0\0\0\0\0\0\0\0\0\0\0\0\0\0\0\0word/", 35},
        {"font", infer_is_font, "OTTO\0", 5},
        {"image", infer_is_image, JPEG},
        {"video", infer_is_video, "FLV\1", 4},
        {"COFF for i386", infer_is_coff_i386, "\x4C\x01\0", 3},
        {"COFF for x64", infer_is_coff_x64, "\x64\x86\0", 3},
        {"COFF for IA-64", infer_is_coff_ia64, "\0\2\0", 3},
    };
    for (size_t i = 0; i < sizeof all / sizeof *all; i++) {
        same(all[i].what, all[i].is(all[i].buf, all[i].len), true);
        same(all[i].what, all[i].is(NULL, 0), false);
        /* The next one's buffer is none of this class or kind. */
        size_t other = (i + 1) % (sizeof all / sizeof *all);
        same(all[i].what, all[i].is(all[other].buf, all[other].len), false);
    }
}

/* What infer.h warns of: some row accepts, and the answer is another. */
static void warnings(void) {
    static const char image[] = "GIF89a%PDF", page[] = "<html>%PDF";
    typed("gif", INFER_IMAGE, image, sizeof image - 1);
    same("an image is a PDF too", infer_is(image, sizeof image - 1, "pdf", 3), true);
    typed("pdf", INFER_ARCHIVE, page, sizeof page - 1);
    typed("bmp", INFER_IMAGE, "BM<html>", 8);
    same("two bytes are an image", infer_is_image("BM<html>", 8), true);
}

int main(void) {
    answers();
    verdicts();
    decided();
    widers();
    evidences();
    texts();
    own_texts();
    class_names();
    encodings();
    content_types();
    mime_types();
    values();
    sniffed();
    classes();
    samples();
    types();
    names();
    odd_names();
    lines();
    questions();
    tests();
    warnings();
    printf("%d answers compared over C, %d differ\n", compared, differing);
    return differing != 0;
}
