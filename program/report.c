/* What was told is written in order: lines, or a table of how many there are. */
#include "program.h"
#include <stdlib.h>
#include <string.h>
#include <time.h>
#include <unistd.h>

enum { PACE = 200 }; /* milliseconds between two lines of progress */

struct report {
    const struct options *options;
    struct summary *summary; /* of the files, or a null pointer */
    uintmax_t files, faults;
    bool has_unknown, has_lie;
    bool has_progress, is_shown; /* whether progress is told, and stands on the terminal now */
    long long shown;
};

static long long now(void) {
    struct timespec time;
    clock_gettime(CLOCK_MONOTONIC, &time);
    return time.tv_sec * 1000LL + time.tv_nsec / 1000000;
}

struct report *new_report(const struct options *options) {
    struct report *report = allocated(calloc(1, sizeof *report));
    report->options = options;
    report->has_progress = options->is_progress && isatty(STDERR_FILENO);
    if (options->is_summary)
        report->summary = new_summary(options);
    else if (options->line.form == INFER_LABEL_CSV)
        printf("%smime_type,extension,class,encoding,standing,name_mime_type,name_extension,bytes,fault,why\n",
               options->line.flags & INFER_LABEL_NO_NAME ? "" : "name,");
    return report;
}

/* Writes how many files there were so far, without a name, which can have bytes that a terminal obeys. */
static void show_progress(struct report *report) {
    long long time = report->has_progress ? now() : 0;
    if (!report->has_progress || time - report->shown < PACE)
        return;
    report->shown = time;
    report->is_shown = true;
    fprintf(stderr, "\r%ju files, %ju faults\033[K", report->files, report->faults);
}

/* Takes it away, so that a line can stand there. */
static void hide_progress(struct report *report) {
    if (report->is_shown)
        fputs("\r\033[K", stderr);
    report->is_shown = false;
}

/* Faults are told on standard error, but for JSON and CSV, which have a place for them. */
static bool is_for_error(const struct report *report, const struct item *item) {
    bool has_place = report->options->line.form == INFER_LABEL_JSON || report->options->line.form == INFER_LABEL_CSV;
    return item->is_fault && (report->summary || !has_place);
}

static void write_line(struct report *report, const struct batch *batch, const struct item *item) {
    const char *line = batch->lines.bytes + item->line;
    if (is_for_error(report, item)) {
        hide_progress(report);
        fflush(stdout);
        fwrite(line, 1, item->line_size, stderr);
        return;
    }
    if (report->options->is_terminal)
        hide_progress(report);
    size_t colored = item->is_lie && report->options->is_colored ? (size_t)((const char *)memchr(line, '\n', item->line_size) - line) : 0;
    fputs(colored > 0 ? "\033[31m" : "", stdout);
    fwrite(line, 1, colored, stdout);
    fputs(colored > 0 ? "\033[0m" : "", stdout);
    fwrite(line + colored, 1, item->line_size - colored, stdout);
}

static void report_item(struct report *report, const struct batch *batch, const struct item *item) {
    report->files++;
    report->faults += item->is_fault;
    report->has_unknown = report->has_unknown || (!item->is_fault && !item->is_known);
    report->has_lie = report->has_lie || item->is_lie;
    if (report->summary && !item->is_fault && item->is_told)
        count_item(report->summary, batch, item);
    else if (item->is_told)
        write_line(report, batch, item);
}

/* Writes a batch, and answers whether all was written so far. */
bool report_batch(struct report *report, const struct batch *batch) {
    for (size_t i = 0; i < batch->count; i++)
        report_item(report, batch, &batch->items[i]);
    if (report->options->is_terminal)
        fflush(stdout);
    show_progress(report);
    return !ferror(stdout);
}

enum status end_report(struct report *report) {
    bool is_lies = report->options->is_lies;
    bool is_some = is_lies ? report->has_lie : report->has_unknown;
    hide_progress(report);
    if (report->summary)
        put_summary(report->summary, report->faults);
    bool has_failed = !end_output() || report->faults > 0;
    free(report);
    return has_failed ? FAILED : is_some ? SOME_UNKNOWN : ALL_KNOWN;
}
