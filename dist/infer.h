/* The type of a file from its first bytes.
 *
 * Pass 8192 bytes, or all if there are fewer: that identifies most files. More is never wrong: a call looks only at
 * bytes that decide, so you may pass all of a file that is mapped into memory. Some old Office files are identified
 * only that way.
 *
 * To allow a file, use the answer: infer_position or infer_verdict, and then the row's MIME type. infer_is,
 * infer_is_mime and the class tests say whether SOME row matches, which need not be the answer: infer_is(buf, len,
 * "pdf", 3) is true of every buffer that has "%PDF" in its first 1024 bytes, such as the GIF image "GIF89a%PDF". And a
 * signature of two bytes is worth little: "BM<html>" is a BMP image by infer_is_image and by the answer, and so is one
 * in 65536 random buffers. Serve a file as the type that you allowed, and let no browser guess again.
 *
 * What stays the same in later versions: an extension and a MIME type keep their meaning, so store these. Row numbers
 * change whenever a row is added, so never store them. The numbers of the classes, below, stay, and new ones may be
 * added.
 *
 * Rows are built-in or further. Built-in rows come first, and infer_position asks only these. infer_more_position also
 * asks further rows, which make the answer more exact or give one where there was none. A call that takes the number of
 * a row takes that of a further row as well, unless its comment says otherwise. Calls that take a text or name a class
 * ask the built-in rows.
 *
 * No function allocates, keeps state or calls back, and all may be called from any thread. You pass a buffer as a
 * pointer and its length, and that many bytes must be readable. You pass a text the same way, with the length that
 * strlen gives. A null pointer with length 0 is the empty buffer or text. No row has a text that is not UTF-8. Upper
 * and lower case differ.
 *
 * A function writes a text like snprintf, to `out`, which must have room for `size` bytes: at most `size` bytes are
 * written, of which the last is a zero, and the function returns the text's length without the zero. So the text is
 * complete if that is less than `size`, and cut otherwise. With `size` 0 nothing is written, and `out` may be null. */
#ifndef INFER_H
#define INFER_H

/* MSVC defines __STDC_VERSION__ only if an option names a version of C. */
#if !defined __cplusplus && !defined _MSC_VER && (!defined __STDC_VERSION__ || __STDC_VERSION__ < 199901L)
#error "infer.h wants C99 or later, or C++"
#endif

#include <stdbool.h>
#include <stddef.h>
#include <stdint.h>

#ifdef __cplusplus
extern "C" {
#endif

/* The version of this header; infer_version has that of the library. */
#define INFER_VERSION "0.1.0"
#define INFER_VERSION_MAJOR 0
#define INFER_VERSION_MINOR 1
#define INFER_VERSION_PATCH 0

/* The class of a row. These numbers stay. No row has the class INFER_CUSTOM. */
enum infer_class_code {
    INFER_NO_ROW = -1,
    INFER_APP = 0,
    INFER_ARCHIVE = 1,
    INFER_AUDIO = 2,
    INFER_BOOK = 3,
    INFER_DOC = 4,
    INFER_FONT = 5,
    INFER_IMAGE = 6,
    INFER_TEXT = 7,
    INFER_VIDEO = 8,
    INFER_CUSTOM = 9
};

/* THE ANSWER: the number of the first built-in row whose signature matches the buffer, from 0 on, or -1 if none does. */
int32_t infer_position(const void *buf, size_t len);

/* The same, and in `is_final` whether the verdict is final, so that no bytes that may follow can change it. It is never
 * final below 1024 bytes, and false does not mean that the answer can change: infer_is_decided reports that exactly.
 * `is_final` must not be null. */
int32_t infer_verdict(const void *buf, size_t len, bool *is_final);

/* The same as infer_position, and in `asked` how many rows were asked, at most 25. `asked` must not be null. */
int32_t infer_position_counted(const void *buf, size_t len, uint32_t *asked);

/* The wider answer: the number of the first further row whose parent is the answer of infer_position and whose
 * signature matches the buffer, or that answer itself if there is no such row. So an ELF file may be an object file,
 * and a buffer that no built-in row matches may be a time zone. */
int32_t infer_more_position(const void *buf, size_t len);

/* Whether the signature of that one row matches the buffer; false if there is no such row. A buffer can match several
 * rows, and some real files do. The parent of a further row is not asked. */
bool infer_accepts(const void *buf, size_t len, int32_t row);

/* Whether no bytes that may follow can change the answer. This is exact: false means that some bytes change it. It is
 * true of most images from their 61st byte on, and never of the empty buffer. */
bool infer_is_decided(const void *buf, size_t len);

/* Whether some bytes that may follow make that one built-in row match the buffer; false if there is no such row, and
 * for every further row. A row that matches still matches whatever follows. It need not be the answer then: the answer
 * moves only to rows before that of infer_position, or to any row if that is -1. */
bool infer_may_become(const void *buf, size_t len, int32_t row);

/* The same for the wider answer, and for every row, built-in or further. If the first is true, no bytes that may follow
 * change what infer_more_position returns. If the second is false, none make that row match the buffer. The other
 * values are not certain, those of the second only for further rows that ask for a relation. The parent of a further
 * row is not asked. */
bool infer_more_is_decided(const void *buf, size_t len);
bool infer_more_may_become(const void *buf, size_t len, int32_t row);

/* WHAT DECIDES the answer, and the wider answer: ranges of the buffer, and what is needed of its length. Every buffer
 * with the same bytes in these ranges and such a length has the same answer, whatever else it has.
 *
 *     infer_range ranges[INFER_MOST_RANGES];
 *     infer_needs needs;
 *     int32_t row = infer_evidence(buf, len, ranges, INFER_MOST_RANGES, &needs);
 *     for (size_t i = 0; i < needs.wanted && i < INFER_MOST_RANGES; i++)
 *         printf("%zu bytes at %zu, one in %zu: row %d\n", ranges[i].len, ranges[i].place, ranges[i].step, (int)ranges[i].row);
 *
 * For example, the 8 bytes that begin each PNG image, and 292 zeros, are a PNG image by 4 bytes at 0, whose row is the
 * answer. 1 byte at 60 has the row of an e-book: it rules that out. At least 4 bytes are needed. Where no row matches,
 * 1 byte at 0 rules out all rows that begin otherwise, so its row is -1.
 *
 * A range has `len` bytes: the first is at `place`, and each other is `step` bytes after the one before. `step` is 1
 * except for a search: that "%PDF" is nowhere in the first 1024 bytes can be shown by one byte in 4 of them.
 *
 * The row of a range is the answer, which these bytes match, or the built-in row that a further row makes more exact,
 * which they match too; or it is a row before the answer, which they rule out. If `is_exact` is true, only a buffer of
 * the same length has the same answer. `wanted` is the number of ranges. The first `room` of them are written to
 * `ranges`, and nothing after them. If there are more, those that were written are not enough: there are at most
 * INFER_MOST_RANGES, and infer_evidence has at most 68. With `room` 0 `ranges` may be null. `needs` must not be null. A
 * call takes some 3 KB of the stack. */
#define INFER_MOST_RANGES 80
typedef struct infer_range {
    size_t place, len, step;
    int32_t row;
} infer_range;
typedef struct infer_needs {
    size_t wanted, least;
    bool is_exact;
} infer_needs;
int32_t infer_evidence(const void *buf, size_t len, infer_range *ranges, size_t room, infer_needs *needs);
int32_t infer_more_evidence(const void *buf, size_t len, infer_range *ranges, size_t room, infer_needs *needs);

/* The number of built-in rows, and of all rows. The numbers of further rows begin with the first of these. */
size_t infer_row_count(void);
size_t infer_more_row_count(void);

/* The row's class, one of `enum infer_class_code`, and INFER_NO_ROW if there is no such row. */
int32_t infer_class(int32_t row);

/* The row's MIME type, its extension, without a dot, and the name of a class, such as "image". Each is a text that
 * belongs to the library, with a zero after it: it lasts as long as the library is loaded, and you do not free it. It
 * is the empty text if there is no such row, or if no class has this number. */
static inline const char *infer_mime_type_text(int32_t row);
static inline const char *infer_extension_text(int32_t row);
static inline const char *infer_class_name_text(int32_t class_code);

/* The same texts, written to `out`. INFER_TEXT_SIZE bytes are room for each text of this version. */
#define INFER_TEXT_SIZE 74
size_t infer_mime_type(int32_t row, char *out, size_t size);
size_t infer_extension(int32_t row, char *out, size_t size);
size_t infer_class_name(int32_t class_code, char *out, size_t size);

/* The IANA name of the encoding of the text in the buffer: us-ascii, utf-8, utf-16le or utf-16be. It is the empty text
 * if the encoding is not known, or if the buffer is not text. Text begins with a byte order mark, or has none of the
 * bytes 00 to 08, 0B, 0E to 1A and 1C to 1F. A character that is cut at the end makes no difference. */
size_t infer_encoding(const void *buf, size_t len, char *out, size_t size);

/* The MIME type that Go's http.DetectContentType returns for a file that begins with these bytes, by the first 512 of
 * them, such as "text/html; charset=utf-8". It is never empty. */
size_t infer_detect_content_type(const void *buf, size_t len, char *out, size_t size);

/* MIME TYPES, as browsers read them, by the MIME Sniffing Standard. `text` is the value of a header, such as
 * "Text/HTML; Charset=utf-8". A text is written as infer_mime_type writes its own. INFER_MIME_SIZE bytes are room for
 * it: a text that would take more is empty.
 *
 * The MIME type in the text, as the standard writes it: "text/html;charset=utf-8". It is empty if there is none, or if
 * the text has more than 256 parameters, those that do not count among them, such as repeated ones. */
#define INFER_MIME_SIZE 4096
size_t infer_mime_parse(const char *text, size_t text_len, char *out, size_t size);

/* Its type and subtype, such as "text/html"; the value of the parameter with that name, in either case, and in `has`,
 * which must not be null, whether there is one; and what a browser takes it for, which supports it or not, such as
 * "application/json" for "text/json". All are empty if the text has no MIME type. */
size_t infer_mime_essence(const char *text, size_t text_len, char *out, size_t size);
size_t infer_mime_parameter(const char *text, size_t text_len, const char *name, size_t name_len, bool *has, char *out, size_t size);
size_t infer_mime_minimize(const char *text, size_t text_len, bool is_supported, char *out, size_t size);

/* The groups that it is in, a sum of these, and 0 if it is in none or the text has no MIME type. */
enum infer_mime_group {
    INFER_MIME_IMAGE = 1,
    INFER_MIME_AUDIO_VIDEO = 2,
    INFER_MIME_FONT = 4,
    INFER_MIME_ZIP = 8,         /* application/zip, or a type that ends in +zip */
    INFER_MIME_ARCHIVE = 16,
    INFER_MIME_XML = 32,
    INFER_MIME_HTML = 64,
    INFER_MIME_SCRIPTABLE = 128, /* a document of it may run scripts: XML, HTML and PDF */
    INFER_MIME_JAVASCRIPT = 256,
    INFER_MIME_JSON = 512
};
uint32_t infer_mime_groups(const char *text, size_t text_len);

/* The MIME type that Fetch extracts from all values of Content-Type together: the last whose type and subtype are not
 * both a star. If that has no charset, it gets the charset of the first of the values in a row with its type and
 * subtype. Pass several values as one text, with ", " between them. */
size_t infer_mime_extract(const char *value, size_t value_len, char *out, size_t size);

/* Whether the value of X-Content-Type-Options forbids sniffing; whether a response that does so is blocked, by the
 * value of Content-Type and by what it is fetched for; and whether that value is one that old servers sent for every
 * file. Pass several values as one text, with ", " between them; for the last call pass only the last value. */
enum infer_mime_destination { INFER_MIME_SCRIPT = 0, INFER_MIME_STYLE = 1, INFER_MIME_OTHER = 2 };
bool infer_mime_is_nosniff(const char *value, size_t value_len);
bool infer_mime_is_blocked(const char *value, size_t value_len, int32_t destination);
bool infer_mime_is_old_server(const char *value, size_t value_len);

/* WHAT A BROWSER MAKES OF FIRST BYTES, by the same standard: the type that it computes from the type that the server
 * sent and from the first INFER_MIME_HEADER bytes, written as infer_mime_parse writes its text. `content_type` is the
 * MIME type that the server sent, and empty if there was none. A context is what the bytes are loaded for; any other
 * number is a page. Where the standard asks no bytes, the type that the server sent stays. It is written as
 * infer_mime_parse writes it, so it is empty if there was none. */
#define INFER_MIME_HEADER 1445
enum infer_mime_flag {
    INFER_MIME_NO_SNIFF = 1,  /* sniffing is forbidden */
    INFER_MIME_OLD_SERVER = 2 /* the header is one that old servers sent for every file */
};
enum infer_mime_context {
    INFER_MIME_IN_PAGE = 0,
    INFER_MIME_IN_IMAGE = 1,
    INFER_MIME_IN_AUDIO_VIDEO = 2,
    INFER_MIME_IN_FONT = 3,
    INFER_MIME_IN_PLUGIN = 4,
    INFER_MIME_IN_STYLE = 5,
    INFER_MIME_IN_SCRIPT = 6,
    INFER_MIME_IN_TEXT_TRACK = 7,
    INFER_MIME_IN_CACHE_MANIFEST = 8
};
size_t infer_mime_compute(const char *content_type, size_t content_type_len, uint32_t flags, int32_t context, const void *buf, size_t len, char *out, size_t size);

/* Whether no bytes that may follow change what is computed for a page, and whether some make a browser run scripts that
 * got no type from the server. True of the first is certain, and false of the second. With INFER_MIME_HEADER bytes the
 * other values are certain too. With fewer, the first can be false although no bytes change what is computed, except
 * where the standard asks no bytes; and true of the second means that some bytes that may follow match, as if more than
 * INFER_MIME_HEADER bytes counted. */
bool infer_mime_is_decided(const char *content_type, size_t content_type_len, uint32_t flags, const void *buf, size_t len);
bool infer_mime_may_be_scriptable(const void *buf, size_t len);

/* What the calls that end in _text use, for languages that cannot call these: `out` gets the place of the text, and its
 * size with the zero. It must have a text before the call too, such as {"", 1}. */
struct infer_text {
    const char *bytes;
    size_t size;
};
void infer_find_mime_type(int32_t row, struct infer_text *out);
void infer_find_extension(int32_t row, struct infer_text *out);
void infer_find_class_name(int32_t class_code, struct infer_text *out);

/* The length of the row's sample, a short buffer with this row as its answer, or as its wider answer if it is a further
 * row. It is 0 if the row is never the answer or there is no such row. The sample is written to `out`, with no zero
 * after it, if `size` bytes are room for all of it; otherwise nothing is written. INFER_SAMPLE_SIZE bytes are always
 * enough, and with `size` 0 `out` may be null. */
#define INFER_SAMPLE_SIZE 32774
size_t infer_sample(int32_t row, void *out, size_t size);

/* TYPES OF YOUR OWN, in a text with one line for each type, such as
 *
 *     qoi  image/qoi  image  -  14: @0 "qoif"
 *
 * docs/NOTATION.md has the notation. The calls do not allocate or keep the text.
 *
 * The result is 0 if the text describes types. Otherwise it is the length of the reason why not, at most 73, which is
 * written to `reason` as infer_mime_type writes its text. `line` and `column`, both from 1, say where the mistake is,
 * and are 0 if there is none. A column counts bytes. Neither may be null. */
size_t infer_types_check(const void *text, size_t text_len, size_t *line, size_t *column, char *reason, size_t size);

/* The class of the buffer's type, one of `enum infer_class_code`, and INFER_NO_ROW if it has none. The type is that of
 * the first line whose parent is the built-in answer and whose signature matches the buffer, or the wider answer if
 * there is no such line. Its MIME type and extension are written as infer_mime_type writes them: INFER_TYPES_TEXT_SIZE
 * bytes are room for each. infer_types_check must give 0 for the text: for any other text the call is safe, but its
 * result means nothing. */
#define INFER_TYPES_TEXT_SIZE 256
int32_t infer_types_get(const void *text, size_t text_len, const void *buf, size_t len, char *mime_type, size_t mime_type_size, char *extension, size_t extension_size);

/* The number, from 1, of the line whose type infer_types_get gives, and 0 if it gives the wider answer or none. So you
 * can distinguish a type of your own from a further type with the same MIME type and extension. If a file has a name
 * too, ask infer_named if this is 0: a line of your own wins over names, since whoever wrote it knows the files. For a
 * text for which infer_types_check does not give 0 the call is safe, but its result means nothing. */
size_t infer_types_line(const void *text, size_t text_len, const void *buf, size_t len);

/* A NAME AND ITS BYTES. The bytes win: a name only chooses among what they leave open, and the standing says what the
 * name did. docs/NAMES.md says which part of a name counts. */
enum infer_standing {
    INFER_AGREE = 0,        /* the bytes are of the name's type */
    INFER_NAME_REFINES = 1, /* they may begin a file of the name's type, which is the answer */
    INFER_BYTES_REFINE = 2, /* their type is a finer kind of the name's type, and is the answer */
    INFER_BYTES_ALONE = 3,  /* the name says nothing: the answer is the type of the bytes */
    INFER_NAME_ALONE = 4,   /* no row matches, and the bytes may be of the name's type, which is the answer */
    INFER_CONTRADICTS = 5,  /* the bytes are of no type of the name: the answer is theirs, if they have one */
    INFER_NOTHING = 6       /* neither says anything: there is no type */
};

/* The text of a standing, such as "name refines", and the empty text if no standing has this number. */
static inline const char *infer_standing_text(int32_t standing);

/* A type, as texts with a zero after them. The MIME type is empty if there is none, and the extension if no row has the
 * type. An own name is a name that nobody else uses for the type: it keeps files apart, but do not send it. */
struct infer_named_type {
    char mime_type[INFER_TEXT_SIZE], extension[INFER_TEXT_SIZE];
    bool is_own_name;
};

/* The answer by a name and bytes: the standing, one of `enum infer_standing`; the row, as infer_more_position returns
 * it for the bytes alone; the resulting type; and the first type that the name stands for, whatever the bytes are. A
 * name that many kinds of file have, such as x.lib, stands for a type and still says nothing if the bytes are of none. */
struct infer_named_answer {
    int32_t standing, row;
    struct infer_named_type told, name;
};

/* Stores the answer by a file's name and its first bytes. The name may have folders before it, and need not be UTF-8.
 * It is bytes with a length, so a zero in it is seen. `answer` must not be null; its old value does not count. */
void infer_named(const void *name, size_t name_len, const void *buf, size_t len, struct infer_named_answer *answer);

/* What is odd about a name: a sum of these, and 0 if nothing is. It does not change the answer by the name. A name with
 * one of the first two misleads whoever sees it, so a gate should refuse it. Honest names have two extensions too, such
 * as initial.json.gz. */
enum infer_oddity {
    INFER_ODD_CONTROL = 1,   /* a control character of ASCII: a byte below 20, or 7F */
    INFER_ODD_DIRECTION = 2, /* a mark of writing direction, in UTF-8: after one, gnp.exe is shown as exe.png */
    INFER_ODD_END = 4,       /* the base name ends in a dot or a blank, which Windows removes */
    INFER_ODD_TWO = 8        /* its last part and an earlier one are extensions, and together not one extension: shell.php.jpg */
};
uint32_t infer_oddities(const void *name, size_t name_len);

/* THE LINE for a file, as the program infer_label prints it: the answer by its name and its first bytes, with a line
 * end.
 *
 *     infer_label_options options = {0};
 *     char line[512];
 *     infer_label_line("main.py", 7, "import os\n", 10, &options, NULL, line, sizeof line);
 *
 * writes "main.py: text/x-python py, us-ascii\n". Whatever bytes a name has, no part of it can move the cursor or is
 * hidden: a control character, a line end, a mark of direction or an invisible character is written as \u and four
 * digits. */
enum infer_label_look {
    INFER_LABEL_NAME_AND_BYTES = 0,
    INFER_LABEL_BYTES = 1,             /* the bytes alone */
    INFER_LABEL_BUILT_IN = 2,          /* the built-in types alone */
    INFER_LABEL_BROWSER = 3,           /* what a browser makes of the bytes */
    INFER_LABEL_BROWSER_NO_SNIFF = 4   /* the same where sniffing is forbidden */
};
enum infer_label_form {
    INFER_LABEL_TEXT = 0,
    INFER_LABEL_MIME = 1, /* the MIME type and the encoding: "text/x-python; charset=us-ascii" */
    INFER_LABEL_JSON = 2, /* an object */
    INFER_LABEL_CSV = 3   /* name, MIME type, extension, class, encoding, standing, type of the name, its extension, size, fault, why */
};
enum infer_label_flag {
    INFER_LABEL_WHY = 1,     /* also the bytes that decide, except for a browser and for types of your own */
    INFER_LABEL_NO_NAME = 2, /* the name is left out */
    INFER_LABEL_SIZE = 4     /* a row of CSV has the size */
};

/* What to write into a line. All zeros are the usual options. `types` is a text for which infer_types_check gives 0,
 * whose types come first. `content_type` is the type that the server sent to a browser. Either may have length 0. */
typedef struct infer_label_options {
    uint32_t look, form, flags;
    const void *types;
    size_t types_len;
    const char *content_type;
    size_t content_type_len, size;
} infer_label_options;

/* What the line says: what the name did, one of `enum infer_standing`, or -1 if the name was not asked, and whether a
 * type is known. */
typedef struct infer_label_told {
    int32_t standing;
    bool is_known;
} infer_label_told;

/* The length of the line, which is written to `out` as infer_mime_type writes its text, and ends in a line end. `told`
 * may be null. */
static inline size_t infer_label_line(const void *name, size_t name_len, const void *buf, size_t len, const infer_label_options *options, infer_label_told *told, char *out, size_t size);

/* The same for languages that have no inline functions. Neither `standing` nor `is_known` may be null. */
size_t infer_label_write(const void *name, size_t name_len, const void *buf, size_t len, uint32_t look, uint32_t form, uint32_t flags, const void *types, size_t types_len, const char *content_type, size_t content_type_len, size_t file_size, int32_t *standing, bool *is_known, char *out, size_t size);

/* The line for a file about which there is only a text: why it could not be read, or what it is if it has no bytes. */
enum infer_label_noted { INFER_LABEL_FAULT = 0, INFER_LABEL_KIND = 1 };
size_t infer_label_note(const void *name, size_t name_len, uint32_t note, const char *text, size_t text_len, uint32_t form, uint32_t flags, char *out, size_t size);

/* Whether some built-in row with this extension or MIME type matches the buffer. It need not be the answer. */
bool infer_is(const void *buf, size_t len, const char *extension, size_t extension_len);
bool infer_is_mime(const void *buf, size_t len, const char *mime_type, size_t mime_type_len);

/* Whether some built-in row of this class matches the buffer. It need not be the answer. */
bool infer_is_app(const void *buf, size_t len);
bool infer_is_archive(const void *buf, size_t len);
bool infer_is_audio(const void *buf, size_t len);
bool infer_is_book(const void *buf, size_t len);
bool infer_is_document(const void *buf, size_t len);
bool infer_is_font(const void *buf, size_t len);
bool infer_is_image(const void *buf, size_t len);
bool infer_is_video(const void *buf, size_t len);

/* Whether the buffer begins like a COFF object for that processor. One row, "obj", stands for all three. */
bool infer_is_coff_i386(const void *buf, size_t len);
bool infer_is_coff_x64(const void *buf, size_t len);
bool infer_is_coff_ia64(const void *buf, size_t len);

/* Whether some built-in row has this extension or MIME type. */
bool infer_is_supported(const char *extension, size_t extension_len);
bool infer_is_mime_supported(const char *mime_type, size_t mime_type_len);

/* The library's version, which is the INFER_VERSION of its own header. */
size_t infer_version(char *out, size_t size);

static inline size_t infer_label_line(const void *name, size_t name_len, const void *buf, size_t len, const infer_label_options *options, infer_label_told *told, char *out, size_t size) {
    infer_label_told unused;
    infer_label_told *it = told ? told : &unused;
    return infer_label_write(name, name_len, buf, len, options->look, options->form, options->flags, options->types, options->types_len, options->content_type, options->content_type_len, options->size, &it->standing, &it->is_known, out, size);
}

static inline const char *infer_standing_text(int32_t standing) {
    static const char *const texts[] = {"agree", "name refines", "bytes refine", "bytes alone", "name alone", "contradicts", "nothing"};
    return standing >= INFER_AGREE && standing <= INFER_NOTHING ? texts[standing] : "";
}

static inline const char *infer_mime_type_text(int32_t row) {
    struct infer_text found = {"", 1};
    infer_find_mime_type(row, &found);
    return found.bytes;
}

static inline const char *infer_extension_text(int32_t row) {
    struct infer_text found = {"", 1};
    infer_find_extension(row, &found);
    return found.bytes;
}

static inline const char *infer_class_name_text(int32_t class_code) {
    struct infer_text found = {"", 1};
    infer_find_class_name(class_code, &found);
    return found.bytes;
}

#ifdef __cplusplus
}
#endif

#endif
