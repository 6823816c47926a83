/* Lines in columns, as a terminal has room for them. */
#define _XOPEN_SOURCE 700
#include "program.h"
#include <langinfo.h>
#include <stdlib.h>
#include <string.h>
#include <sys/ioctl.h>
#include <unistd.h>
#include <wchar.h>

/* How wide the columns are: the name's is 0 if it is left out. */
static size_t name_width, type_width, whole_width;

/* How many bytes of the text fill so much of a line, and in `filled` how much they do. */
static size_t bytes_in(const char *text, size_t size, size_t width, size_t *filled) {
    mbstate_t state = {0};
    size_t at = 0;
    *filled = 0;
    while (at < size) {
        wchar_t c;
        size_t step = mbrtowc(&c, text + at, size - at, &state);
        bool is_character = step != 0 && step != (size_t)-1 && step != (size_t)-2;
        int wide = is_character ? wcwidth(c) : 1;
        if (*filled + (size_t)(wide > 0 ? wide : 0) > width)
            break;
        if (!is_character)
            state = (mbstate_t){0};
        *filled += (size_t)(wide > 0 ? wide : 0);
        at += is_character ? step : 1;
    }
    return at;
}

static size_t width_of(const char *text, size_t size) {
    size_t filled;
    bytes_in(text, size, (size_t)-1, &filled);
    return filled;
}

/* What stands where a text is cut. */
static const char *cut_mark(void) { return strcmp(nl_langinfo(CODESET), "UTF-8") == 0 ? "\u2026" : ">"; }

/* Puts a text, cut at its end if it is wider. */
static void put_front(const char *text, size_t size, size_t width, struct text *line) {
    size_t filled;
    bool is_cut = width > 0 && bytes_in(text, size, width, &filled) < size;
    put_bytes(line, text, bytes_in(text, size, width - is_cut, &filled));
    put_text(line, is_cut ? cut_mark() : "");
}

/* Puts a path, cut at its front: the file's own name is at its end. */
static void put_path(const char *path, size_t size, size_t width, struct text *line) {
    size_t whole = width_of(path, size), at = 0, filled, last;
    if (whole > width) {
        at = bytes_in(path, size, whole - width + 1, &filled);
        /* A wide character may stand across the place. */
        at += filled < whole - width + 1 ? bytes_in(path + at, size - at, 2, &last) : 0;
        put_text(line, cut_mark());
    }
    put_bytes(line, path + at, size - at);
}

/* Puts a type, cut before its extension. */
static void put_type(const char *type, size_t size, size_t width, struct text *line) {
    const char *blank = memrchr(type, ' ', size);
    size_t extension = blank ? size - (size_t)(blank - type) : 0;
    bool is_cut = width_of(type, size) > width && extension < width;
    put_front(type, is_cut ? size - extension : size, is_cut ? width - extension : width, line);
    put_bytes(line, type + size - extension, is_cut ? extension : 0);
}

/* Puts blanks up to the next column, behind a cell that began there. */
static void put_blanks(size_t begun, size_t width, struct text *line) {
    for (size_t filled = width_of(line->bytes + begun, line->size - begun); filled < width + 2; filled++)
        put_text(line, " ");
}

/* The width of the terminal, or what is asked for. */
static size_t terminal_width(void) {
    struct winsize size = {0};
    const char *asked = getenv("COLUMNS");
    unsigned long columns = asked ? strtoul(asked, NULL, 10) : 0;
    if (columns == 0 && ioctl(STDOUT_FILENO, TIOCGWINSZ, &size) == 0)
        columns = size.ws_col;
    return columns < 20 || columns > 10000 ? 80 : columns;
}

/* Columns are for texts on a terminal. The first is as wide as the widest path, if all are known, and at most 28 of 80. */
void prepare_columns(struct options *options, char **paths) {
    size_t widest = strlen(options->input_name);
    options->is_columns = options->is_terminal && options->line.form == INFER_LABEL_TEXT;
    if (!options->is_columns)
        return;
    whole_width = terminal_width();
    for (; *paths; paths++) {
        size_t width = width_of(*paths, strlen(*paths));
        widest = width > widest ? width : widest;
    }
    size_t most = whole_width * 7 / 20;
    bool is_fixed = options->is_walk || options->files0 || widest > most;
    name_width = options->line.flags & INFER_LABEL_NO_NAME ? 0 : is_fixed ? most : widest;
    type_width = whole_width * 3 / 10;
    /* The name has a column of its own, and so have reasons lines. */
    options->line.flags = (options->line.flags | INFER_LABEL_NO_NAME) & ~(uint32_t)INFER_LABEL_WHY;
}

/* How wide the column of a type is. A type that is wider has what the rest leaves, and a rest that is wider what the type leaves. */
static size_t column_of(size_t type, size_t rest, size_t left) {
    size_t spare = left > rest + 2 ? left - rest - 2 : 0;
    if (type > type_width && spare > type_width)
        return type < spare ? type : spare;
    if (type < type_width && spare < type_width)
        return type > spare ? type : spare;
    return type_width;
}

/* Puts a line into columns: the name, the type, and what else there is. */
void put_columns(const char *name, size_t name_size, const char *line, size_t size, struct text *lines) {
    size_t left = whole_width, begun = lines->size, type = type_size(line, size);
    size -= size > 0 && line[size - 1] == '\n';
    if (name_width > 0) {
        put_path(name, name_size, name_width, lines);
        put_blanks(begun, name_width, lines);
        left -= name_width + 2;
    }
    if (type < size) {
        const char *rest = line + type + strspn(line + type, ",: ");
        size_t rest_size = size - (size_t)(rest - line);
        size_t column = column_of(width_of(line, type), width_of(rest, rest_size), left);
        begun = lines->size;
        put_type(line, type, column, lines);
        put_blanks(begun, column, lines);
        put_front(rest, rest_size, left - column - 2, lines);
    } else
        put_type(line, size, left, lines);
    put_text(lines, "\n");
}
