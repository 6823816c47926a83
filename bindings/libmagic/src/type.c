/* What some bytes are. */
#include "magic_set.h"
#include <string.h>

/* Names of types that are told by something else than a magic(5) file in libmagic, and the flag that leaves each out. */
static const struct {
    const char *mime_type;
    int flag;
} LEFT_OUT[] = {
    {"application/x-tar", MAGIC_NO_CHECK_TAR},
    {"application/json", MAGIC_NO_CHECK_JSON},
    {"application/x-ndjson", MAGIC_NO_CHECK_JSON},
    {"application/x-ole-storage", MAGIC_NO_CHECK_CDF},
    {"application/msword", MAGIC_NO_CHECK_CDF},
    {"application/vnd.ms-excel", MAGIC_NO_CHECK_CDF},
    {"application/vnd.ms-powerpoint", MAGIC_NO_CHECK_CDF},
    {"text/plain", MAGIC_NO_CHECK_TEXT},
};

static const struct name UNKNOWN = {"application/octet-stream", "???", "data", OF_DATA};
static const struct name PLAIN_TEXT = {"text/plain", "txt", "text", OF_PLAIN_TEXT};
static const struct name EMPTY = {"application/x-empty", "???", "empty", OF_DATA};
static const struct name SHORT = {"application/octet-stream", "???", "very short file (no magic)", OF_DATA};

static bool is_left_out(int flags, const char *mime_type) {
    for (size_t at = 0; at < sizeof LEFT_OUT / sizeof LEFT_OUT[0]; at++)
        if (strcmp(LEFT_OUT[at].mime_type, mime_type) == 0) return flags & LEFT_OUT[at].flag;
    return flags & MAGIC_NO_CHECK_SOFT;
}

/* What is told of a type without a row is written here. */
struct texts {
    char mime_type[INFER_TYPES_TEXT_SIZE], extension[INFER_TYPES_TEXT_SIZE];
};

/* Whether the bytes are of a type of the caller's own, which has the name that its line gives it. */
static bool is_own(const struct magic_set *it, const struct front *front, struct texts *texts) {
    if (it->types == NULL || infer_types_line(it->types, it->types_len, front->bytes, front->len) == 0) return false;
    infer_types_get(it->types, it->types_len, front->bytes, front->len, texts->mime_type, sizeof texts->mime_type, texts->extension, sizeof texts->extension);
    return true;
}

/* Whether the path chooses among what the bytes leave open. The row is then that of its type, or -1 if none has it. */
static bool is_named(const struct front *front, int32_t *row, struct texts *texts) {
    struct infer_named_answer answer;
    if (front->path == NULL) return false;
    infer_named(front->path, strlen(front->path), front->bytes, front->len, &answer);
    if (answer.standing != INFER_NAME_REFINES && answer.standing != INFER_NAME_ALONE) return false;
    /* A name that nobody else knows is said to no program, and any text is plain without a name. */
    if (answer.told.is_own_name || strcmp(answer.told.mime_type, "text/plain") == 0) return false;
    memcpy(texts->mime_type, answer.told.mime_type, sizeof answer.told.mime_type);
    *row = row_with(answer.told.mime_type, answer.told.extension);
    return true;
}

/* The description of a type without a row is its MIME type. */
static struct name name_without_row(const char *mime_type) {
    return (struct name){mime_type, "???", mime_type, strncmp(mime_type, "text/", 5) == 0 ? OF_TEXT : OF_DATA};
}

/* What a signature tells, or a path beside it; a MIME type of null if neither does. */
static struct name name_by_signature(const struct magic_set *it, const struct front *front, struct texts *texts) {
    if (is_own(it, front, texts)) return (struct name){texts->mime_type, texts->extension, texts->mime_type, OF_DATA};
    int32_t row = infer_more_position(front->bytes, front->len);
    bool has_name = is_named(front, &row, texts);
    if (row < 0) return has_name ? name_without_row(texts->mime_type) : (struct name){NULL, NULL, NULL, OF_DATA};
    struct name name = name_of_row(row);
    return name.words == OF_ELF ? name_of_elf(front, !(it->flags & MAGIC_NO_CHECK_ELF)) : name;
}

static struct name name_of(const struct magic_set *it, const struct front *front, const char *encoding, struct texts *texts) {
    if (front->len < 2) return front->len == 0 ? EMPTY : SHORT;
    struct name name = name_by_signature(it, front, texts);
    if (name.mime_type != NULL && !is_left_out(it->flags, name.mime_type)) return name;
    return strcmp(encoding, "binary") == 0 || it->flags & MAGIC_NO_CHECK_TEXT ? UNKNOWN : PLAIN_TEXT;
}

static void say_description(struct magic_set *it, const struct name *name, const char *encoding) {
    const char *words = words_of_encoding(encoding);
    switch (name->words) {
    case OF_TEXT: say(it, "%s, %s text", name->description, words); break;
    case OF_SCRIPT: say(it, "%s, %s text executable", name->description, words); break;
    case OF_PLAIN_TEXT: say(it, "%s text", words); break;
    default: say(it, "%s", name->description);
    }
}

void say_type(struct magic_set *it, const struct front *front) {
    struct texts texts;
    struct front looked = *front;
    if (looked.len > it->params[MAGIC_PARAM_BYTES_MAX]) looked.len = it->params[MAGIC_PARAM_BYTES_MAX];
    size_t encoded = looked.len < it->params[MAGIC_PARAM_ENCODING_MAX] ? looked.len : it->params[MAGIC_PARAM_ENCODING_MAX];
    bool has_encoding = looked.len > 1 && !(it->flags & MAGIC_NO_CHECK_ENCODING);
    const char *encoding = has_encoding ? encoding_of(looked.bytes, encoded) : "binary";
    struct name name = name_of(it, &looked, encoding, &texts);
    int flags = it->flags;
    if (flags & MAGIC_MIME_TYPE) say(it, "%s", name.mime_type);
    if ((flags & MAGIC_MIME) == MAGIC_MIME) say(it, "; charset=");
    if (flags & MAGIC_MIME_ENCODING) say(it, "%s", encoding);
    if (flags & MAGIC_MIME) return;
    if (flags & MAGIC_APPLE) say(it, "UNKNUNKN");
    else if (flags & MAGIC_EXTENSION) say(it, "%s", name.extensions);
    else say_description(it, &name, encoding);
}
