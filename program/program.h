/* What the files of the program infer_label share. */
#ifndef INFER_LABEL_PROGRAM_H
#define INFER_LABEL_PROGRAM_H

#include "infer.h"
#include <stdatomic.h>
#include <stdio.h>
#include <sys/types.h>

/* The status of a run: all types are known; some are not, or under --lies some names lie; something could not be read or
 * written, or a word is wrong. */
enum status { ALL_KNOWN = 0, SOME_UNKNOWN = 1, FAILED = 2 };

/* A text that grows. */
struct text {
    char *bytes;
    size_t size, room;
};

/* What the words of a run say. */
struct options {
    infer_label_options line; /* as the library takes them */
    size_t front;                    /* how many bytes of a file are looked at */
    const char *input_name;          /* the name of standard input */
    const char *files0;              /* the file of names, "-" for standard input, or a null pointer */
    const char **excluded;
    size_t excluded_count;
    unsigned threads;
    bool is_walk, is_one_system, is_summary, is_lies, is_why, is_whole_why, is_progress, is_terminal, is_columns, is_colored, is_list;
    struct text types; /* the text of --types */
};

/* An open folder, relative to which its files are opened, so that the system looks up one name for each and not a path. Its last
 * user closes it. */
struct folder {
    int fd;
    atomic_uint users;
};

/* A file to tell of, and what is told of it. */
struct item {
    size_t path, path_size; /* where its path stands in the batch's texts */
    size_t name;            /* how much of that is the folder's, if it is open */
    struct folder *folder;  /* or a null pointer */
    int fault;              /* why it cannot be looked at, or 0 */
    bool is_input;          /* it is standard input */
    bool is_walked;         /* it was met on a walk, which follows no link */
    bool is_regular;        /* and was a regular file then */
    bool is_fault, is_known, is_lie, is_told;
    size_t line, line_size; /* where its line stands in the batch's lines */
    uintmax_t bytes;
};

/* So many files in a row, so that threads hand over seldom. */
enum { BATCH = 64, MOST_THREADS = 64 };
struct batch {
    struct text paths, lines;
    struct item items[BATCH];
    size_t count;
    bool is_done;
};

/* texts.c: what is put behind a text; without memory the program ends. */
void put_bytes(struct text *text, const char *bytes, size_t size);
void put_text(struct text *text, const char *more);
void put_format(struct text *text, const char *format, ...) __attribute__((format(printf, 2, 3)));
char *make_room(struct text *text, size_t size);
void put_shown(struct text *text, const char *name, size_t size);
size_t size_before(const char *const *marks, const char *line, size_t size);
size_t type_size(const char *line, size_t size);
bool end_output(void);
void *allocated(void *memory);

/* options.c */
void tell_file(const char *path, const char *why);
void refuse_file(const char *path, const char *why) __attribute__((noreturn));
void read_words(int argc, char **argv, struct options *options);

/* help.c */
extern const char short_help[], long_help[];
void list_types(void);

/* inputs.c: the files in their order. */
struct inputs;
struct inputs *open_inputs(const struct options *options, char **paths);
bool fill_batch(struct inputs *inputs, struct batch *batch);
bool close_inputs(struct inputs *inputs);
void release_folder(struct folder *folder);

/* label.c */
struct labeller;
struct labeller *new_labeller(const struct options *options);
void label_batch(struct labeller *labeller, struct batch *batch);
void free_labeller(struct labeller *labeller);

/* why.c */
void put_reasons(const struct options *options, const void *front, size_t size, struct text *lines);

/* columns.c */
void prepare_columns(struct options *options, char **paths);
void put_columns(const char *name, size_t name_size, const char *line, size_t size, struct text *lines);

/* summary.c */
struct summary;
struct summary *new_summary(const struct options *options);
void count_item(struct summary *summary, const struct batch *batch, const struct item *item);
void put_summary(struct summary *summary, uintmax_t faults);

/* report.c: writes what was told, in order. */
struct report;
struct report *new_report(const struct options *options);
bool report_batch(struct report *report, const struct batch *batch);
enum status end_report(struct report *report);

/* run.c */
enum status run(const struct options *options, char **paths);

#endif
