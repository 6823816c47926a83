/* Compares content types with what Go's function said of the same buffers, and asks each with room for less than the text.
 * usage: content_types VECTORS */
#include "data.h"
#include "infer.h"
#include <string.h>

static struct tally vectors = {.asks = "content types"}, cut = {.asks = "the same with less room"};

static void compare(const struct buffer *data, const char *type, const char *name) {
    char out[INFER_TEXT_SIZE];
    size_t size = infer_detect_content_type(data->bytes, data->len, out, sizeof out);
    WANTS(&vectors, size == strlen(type) && strcmp(out, type) == 0, "%s: %s", name, out);
    for (size_t room = 0; room <= size; room++) {
        memset(out, '!', sizeof out);
        bool is_told = infer_detect_content_type(data->bytes, data->len, out, room) == size;
        bool is_front = room == 0 || (strncmp(out, type, room - 1) == 0 && out[room - 1] == '\0');
        WANTS(&cut, is_told && is_front && out[room] == '!', "%s with room for %zu", name, room);
    }
}

int main(int argc, char **argv) {
    if (argc != 2) return 2;
    static struct table table;
    static struct buffer data;
    table = read_table(argv[1], 2);
    for (size_t i = 0; i < table.count; i++) {
        decode(&data, table.lines[i].fields[0]);
        compare(&data, table.lines[i].fields[1], table.lines[i].fields[0]);
    }
    const struct tally tallies[] = {vectors, cut};
    return report(tallies, sizeof tallies / sizeof *tallies) != 0;
}
