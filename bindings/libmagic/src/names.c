/* libmagic's names of the rows' types. */
#include "magic_set.h"
#include <string.h>

#define NAME(extension, mime_type, theirs, extensions, words, description, source) {extension, mime_type, {theirs, extensions, description, words}},
static const struct {
    const char *extension, *mime_type;
    struct name name;
} NAMES[] = {
#include "names.h"
};

struct name name_of_row(int32_t row) {
    const char *mime_type = infer_mime_type_text(row), *extension = infer_extension_text(row);
    size_t i = 0, count = sizeof NAMES / sizeof NAMES[0];
    while (i < count && (strcmp(NAMES[i].mime_type, mime_type) != 0 || strcmp(NAMES[i].extension, extension) != 0)) i++;
    if (i == count) return (struct name){mime_type, extension, mime_type, OF_DATA};
    struct name name = NAMES[i].name;
    if (!*name.mime_type) name.mime_type = mime_type;
    if (!*name.extensions) name.extensions = extension;
    return name;
}

int32_t row_with(const char *mime_type, const char *extension) {
    int32_t row = (int32_t)infer_more_row_count() - 1;
    while (row >= 0 && (strcmp(infer_mime_type_text(row), mime_type) != 0 || strcmp(infer_extension_text(row), extension) != 0)) row--;
    return row;
}
