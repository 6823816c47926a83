/* How many files there are of each type, and how many bytes. */
#include "program.h"
#include <stdlib.h>
#include <string.h>

/* Files of one type, and the next of the list. */
struct total {
    struct total *next;
    char *type; /* as it is written */
    bool is_known;
    uintmax_t files, bytes;
};

enum { LISTS = 1024 };
struct summary {
    const struct options *options;
    struct total *lists[LISTS];
    size_t count;
    uintmax_t files, bytes;
};

struct summary *new_summary(const struct options *options) {
    struct summary *summary = allocated(calloc(1, sizeof *summary));
    summary->options = options;
    return summary;
}

/* The length of what a line of JSON tells of the type: its first members. */
static size_t json_type_size(const char *line, size_t size) {
    static const char *const others[] = {"}\n", ",\"empty\":", ",\"encoding\":", ",\"standing\":", NULL};
    return size_before(others, line, size);
}

/* What is told of the type, with what a name says that lies. */
static void put_type(const struct options *options, const char *line, size_t size, bool is_lie, struct text *type) {
    bool is_json = options->line.form == INFER_LABEL_JSON;
    const char *mark = is_json ? ",\"named\":" : ", but named as ", *end = is_json ? "}\n" : "\n";
    put_bytes(type, line, is_json ? json_type_size(line, size) : type_size(line, size));
    const char *named = is_lie && options->is_lies ? memmem(line, size, mark, strlen(mark)) : NULL;
    if (named)
        put_bytes(type, named, size - (size_t)(named - line) - strlen(end));
    put_bytes(type, "", 1);
}

static size_t list_of(const char *type) {
    size_t sum = 0;
    for (; *type; type++)
        sum = sum * 31 + (unsigned char)*type;
    return sum % LISTS;
}

static struct total *total_of(struct summary *summary, const char *type, bool is_known) {
    struct total **list = &summary->lists[list_of(type)];
    for (struct total *it = *list; it; it = it->next)
        if (strcmp(it->type, type) == 0)
            return it;
    struct total *it = allocated(calloc(1, sizeof *it));
    *it = (struct total){.next = *list, .type = allocated(strdup(type)), .is_known = is_known};
    *list = it;
    summary->count++;
    return it;
}

void count_item(struct summary *summary, const struct batch *batch, const struct item *item) {
    struct text type = {0};
    put_type(summary->options, batch->lines.bytes + item->line, item->line_size, item->is_lie, &type);
    struct total *total = total_of(summary, type.bytes, item->is_known && item->bytes > 0);
    free(type.bytes);
    total->files++;
    total->bytes += item->bytes;
    summary->files++;
    summary->bytes += item->bytes;
}

/* The most frequent come first, and what has no type last. */
static int by_files(const void *left, const void *right) {
    const struct total *a = *(struct total *const *)left, *b = *(struct total *const *)right;
    if (a->is_known != b->is_known)
        return a->is_known ? -1 : 1;
    if (a->files != b->files)
        return a->files < b->files ? 1 : -1;
    return strcmp(a->type, b->type);
}

static void put_total(const struct summary *summary, const struct total *total) {
    double share = (double)total->files / (double)summary->files;
    if (summary->options->line.form == INFER_LABEL_JSON)
        printf("%s,\"files\":%ju,\"bytes\":%ju,\"share\":%.6f}\n", total->type, total->files, total->bytes, share);
    else
        printf("%12ju %18ju %6.1f %%  %s\n", total->files, total->bytes, 100 * share, total->type);
}

static void put_all(const struct summary *summary, uintmax_t faults) {
    if (summary->options->line.form == INFER_LABEL_JSON) {
        printf("{\"files\":%ju,\"bytes\":%ju,\"faults\":%ju}\n", summary->files, summary->bytes, faults);
        return;
    }
    printf("%12ju %18ju %8s  all\n", summary->files, summary->bytes, "");
    if (faults)
        printf("%12ju %18s %8s  could not be read\n", faults, "", "");
}

/* Writes the table, and frees it. */
void put_summary(struct summary *summary, uintmax_t faults) {
    struct total **all = allocated(calloc(summary->count + 1, sizeof *all));
    size_t count = 0;
    for (size_t list = 0; list < LISTS; list++)
        for (struct total *it = summary->lists[list]; it; it = it->next)
            all[count++] = it;
    qsort(all, count, sizeof *all, by_files);
    if (summary->options->line.form != INFER_LABEL_JSON)
        printf("%12s %18s %8s  %s\n", "files", "bytes", "share", "type");
    for (size_t i = 0; i < count; i++)
        put_total(summary, all[i]);
    put_all(summary, faults);
    for (size_t i = 0; i < count; i++) {
        free(all[i]->type);
        free(all[i]);
    }
    free(all);
    free(summary);
}
