/* Compares what names and first bytes tell with data that a program computed which shares no code with the library: each
 * name as it is, behind folders, and with other letters and the ending of a copy.
 * usage: named VECTORS */
#include "data.h"
#include "infer.h"
#include <ctype.h>
#include <stdio.h>
#include <string.h>

static struct tally vectors = {.asks = "names and bytes"}, others = {.asks = "the same behind a folder, in capitals or of a copy"};

static const char *const standings[] = {"agree", "name refines", "bytes refine", "bytes alone", "name alone", "contradicts", "nothing"};

/* Fills the buffer with a name, in which some bytes are written as `\xHH`. */
static void unescape(struct buffer *name, const char *text) {
    name->len = 0;
    lengthen(name, 0);
    while (*text) {
        unsigned byte;
        bool is_escaped = sscanf(text, "\\x%2x", &byte) == 1;
        *lengthen(name, 1) = (unsigned char)(is_escaped ? byte : (unsigned char)*text);
        text += is_escaped ? 4 : 1;
    }
}

static bool tells(const struct buffer *name, const struct buffer *data, const char *standing, const char *mime_type) {
    struct infer_named_answer got;
    infer_named(name->bytes, name->len, data->bytes, data->len, &got);
    return strcmp(standings[got.standing], standing) == 0 && strcmp(*got.told.mime_type ? got.told.mime_type : "-", mime_type) == 0;
}

static void compare(char *const fields[]) {
    static struct buffer name, data, other;
    unescape(&name, fields[0]);
    decode(&data, fields[1]);
    WANTS(&vectors, tells(&name, &data, fields[2], fields[3]), "%s, %s", fields[0], fields[1]);
    other.len = 0;
    append(&other, "a.png/b.c\\", 10);
    append(&other, name.bytes, name.len);
    WANTS(&others, tells(&other, &data, fields[2], fields[3]), "a folder before %s, %s", fields[0], fields[1]);
    for (size_t i = 0; i < other.len; i++)
        other.bytes[i] = (unsigned char)toupper(other.bytes[i]);
    WANTS(&others, tells(&other, &data, fields[2], fields[3]), "%s in capitals, %s", fields[0], fields[1]);
}

int main(int argc, char **argv) {
    if (argc != 2) return 2;
    static struct table table;
    table = read_table(argv[1], 4);
    for (size_t i = 0; i < table.count; i++)
        compare(table.lines[i].fields);
    const struct tally tallies[] = {vectors, others};
    return report(tallies, sizeof tallies / sizeof *tallies) != 0;
}
