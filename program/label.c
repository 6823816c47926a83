/* The line of a file. */
#include "program.h"
#include <errno.h>
#include <fcntl.h>
#include <stdlib.h>
#include <string.h>
#include <sys/stat.h>
#include <unistd.h>

struct labeller {
    const struct options *options;
    unsigned char *front;
    struct text name, line; /* a name and a line before they are put into columns */
};

/* The first bytes of a file, and of how many. */
struct read {
    size_t size;
    uintmax_t bytes;
    const char *fault, *kind; /* why they could not be read; what it is if it has none */
};

struct labeller *new_labeller(const struct options *options) {
    struct labeller *labeller = allocated(calloc(1, sizeof *labeller));
    labeller->options = options;
    labeller->front = allocated(malloc(options->front));
    return labeller;
}

void free_labeller(struct labeller *labeller) {
    free(labeller->front);
    free(labeller->name.bytes);
    free(labeller->line.bytes);
    free(labeller);
}

/* What a file is that has no bytes of its own, or a null pointer. */
static const char *kind_of(mode_t mode) {
    return S_ISREG(mode)    ? NULL
           : S_ISDIR(mode)  ? "folder"
           : S_ISLNK(mode)  ? "link"
           : S_ISFIFO(mode) ? "fifo"
           : S_ISSOCK(mode) ? "socket"
           : S_ISCHR(mode)  ? "character device"
           : S_ISBLK(mode)  ? "block device"
                            : "special file";
}

/* Reads as many bytes as are looked at, or fewer if there are no more. */
static void read_bytes(struct labeller *labeller, int fd, size_t wanted, struct read *read_so) {
    while (read_so->size < wanted) {
        ssize_t got = read(fd, labeller->front + read_so->size, wanted - read_so->size);
        if (got == 0)
            break;
        if (got > 0)
            read_so->size += (size_t)got;
        else if (errno != EINTR) {
            read_so->fault = strerror(errno);
            break;
        }
    }
}

/* Reads the front of an open file. Of one that says its size no read is made at its end, and one that has become shorter since
 * then is a fault. */
static void read_open(struct labeller *labeller, int fd, const struct stat *about, struct read *front) {
    size_t most = labeller->options->front;
    bool is_short = about->st_size > 0 && (uintmax_t)about->st_size < most;
    struct stat after;
    front->bytes = (uintmax_t)about->st_size;
    read_bytes(labeller, fd, is_short ? (size_t)about->st_size : most, front);
    bool is_cut = !front->fault && about->st_size > 0 && front->size < most && front->size < (uintmax_t)about->st_size;
    if (is_cut && fstat(fd, &after) == 0 && after.st_size < about->st_size)
        front->fault = "it shrank while it was read";
    if (about->st_size == 0)
        front->bytes = front->size;
}

/* Opens what was a regular file just before, and does not wait if something else has taken its place. */
static int open_file(int at, const char *name, bool is_walked) {
    int fd;
    do
        fd = openat(at, name, O_RDONLY | O_NONBLOCK | O_NOCTTY | O_CLOEXEC | (is_walked ? O_NOFOLLOW : 0));
    while (fd < 0 && errno == EINTR);
    return fd;
}

/* Why a name leads to no file, or that it is a link which leads nowhere. */
static void note_missing(int at, const char *name, struct read *front) {
    struct stat link;
    int fault = errno;
    bool is_broken = (fault == ENOENT || fault == ELOOP) && fstatat(at, name, &link, AT_SYMLINK_NOFOLLOW) == 0 && S_ISLNK(link.st_mode);
    front->kind = is_broken ? "broken link" : NULL;
    front->fault = is_broken ? NULL : strerror(fault);
}

/* Opens what was a regular file when the walk met it, and asks the open file about itself. */
static int open_met(int at, const char *name, struct stat *about) {
    int fd = open_file(at, name, true);
    if (fd >= 0 && fstat(fd, about) != 0) {
        close(fd);
        fd = -1;
    }
    return fd;
}

/* Reads a regular file and nothing else: a device can act as soon as it is opened, so that nothing is opened of which it is not
 * known that it is regular. One that is open already is not asked for its kind and size again, which would be one more call. */
static void read_path(struct labeller *labeller, const char *path, const struct item *item, struct read *front) {
    int at = item->folder ? item->folder->fd : AT_FDCWD;
    const char *name = item->folder ? path + item->name : path;
    struct stat about;
    int fd = item->is_regular ? open_met(at, name, &about) : -1;
    if (fd < 0 && fstatat(at, name, &about, item->is_walked ? AT_SYMLINK_NOFOLLOW : 0) != 0) {
        note_missing(at, name, front);
        return;
    }
    front->kind = kind_of(about.st_mode);
    if (fd < 0 && !front->kind && (fd = open_file(at, name, item->is_walked)) < 0)
        front->fault = strerror(errno);
    if (fd < 0)
        return;
    if (!front->kind)
        read_open(labeller, fd, &about, front);
    close(fd);
}

static void read_input(struct labeller *labeller, struct read *front) {
    read_bytes(labeller, STDIN_FILENO, labeller->options->front, front);
    front->bytes = front->size;
}

/* Whether bytes after the first ones can still make the file what its name says: an old document can need more to be told. */
static bool is_open(const struct labeller *labeller, const char *name, size_t name_size, const struct read *front) {
    struct infer_named_answer named;
    if (front->bytes <= front->size)
        return false;
    infer_named(name, name_size, labeller->front, front->size, &named);
    for (int32_t row = 0; row < (int32_t)infer_more_row_count(); row++)
        if (strcmp(infer_extension_text(row), named.name.extension) == 0 && infer_more_may_become(labeller->front, front->size, row))
            return true;
    return false;
}

/* Puts the line that a call writes, which is asked again if there was no room for it. */
static void put_note(const infer_label_options *line, const char *name, size_t name_size, enum infer_label_noted note, const char *text, struct text *lines) {
    size_t room = 256, size = 0;
    do {
        room += size;
        char *out = make_room(lines, room);
        size = infer_label_note(name, name_size, note, text, strlen(text), line->form, line->flags, out, room);
    } while (size >= room);
    lines->size += size;
}

static void put_line(const struct labeller *labeller, const char *name, size_t name_size, const struct read *front, infer_label_told *told, struct text *lines) {
    infer_label_options line = labeller->options->line;
    size_t room = 256, size = 0;
    line.size = front->bytes;
    do {
        room += size;
        char *out = make_room(lines, room);
        size = infer_label_line(name, name_size, labeller->front, front->size, &line, told, out, room);
    } while (size >= room);
    lines->size += size;
}

static void show_name(struct labeller *labeller, const char *name, size_t size) {
    labeller->name.size = 0;
    put_shown(&labeller->name, name, size);
}

/* Puts a line, in columns on a terminal, with the reasons behind it. */
static void put_told(struct labeller *labeller, const char *name, size_t name_size, const struct read *front, struct item *item, struct text *lines) {
    const struct options *options = labeller->options;
    infer_label_told told = {0};
    labeller->line.size = 0;
    put_line(labeller, name, name_size, front, &told, options->is_columns ? &labeller->line : lines);
    item->is_known = told.is_known || front->size == 0;
    bool is_asked = options->is_lies || options->is_colored || options->is_columns;
    item->is_lie = is_asked && told.standing == INFER_CONTRADICTS && !is_open(labeller, name, name_size, front);
    item->is_told = !options->is_lies || item->is_lie;
    if (!options->is_columns)
        return;
    show_name(labeller, name, name_size);
    put_columns(labeller->name.bytes, labeller->name.size, labeller->line.bytes, labeller->line.size, lines);
    if (options->is_why)
        put_reasons(options, labeller->front, front->size, lines);
}

/* What a kind is called: a folder as a text with how to walk it, where none is walked, and in a MIME type's place by the words of
 * `file`. */
static const char *kind_text(const struct options *options, const char *kind) {
    static const char *const kinds[][2] = {
        {"folder", "inode/directory"}, {"fifo", "inode/fifo"},        {"socket", "inode/socket"},
        {"link", "inode/symlink"},     {"broken link", "inode/symlink"}, {"character device", "inode/chardevice"},
        {"block device", "inode/blockdevice"},
    };
    for (size_t i = 0; options->line.form == INFER_LABEL_MIME && i < sizeof kinds / sizeof *kinds; i++)
        if (strcmp(kind, kinds[i][0]) == 0)
            return kinds[i][1];
    bool is_hint = options->line.form == INFER_LABEL_TEXT && !options->is_walk && strcmp(kind, "folder") == 0;
    return is_hint ? "folder (-r walks it)" : kind;
}

static void put_kind(struct labeller *labeller, const char *name, size_t name_size, const char *kind, struct item *item, struct text *lines) {
    const struct options *options = labeller->options;
    const char *text = kind_text(options, kind);
    item->is_known = true;
    item->is_told = !options->is_lies;
    if (!options->is_columns) {
        put_note(&options->line, name, name_size, INFER_LABEL_KIND, text, lines);
        return;
    }
    show_name(labeller, name, name_size);
    put_columns(labeller->name.bytes, labeller->name.size, text, strlen(text), lines);
}

static void label_item(struct labeller *labeller, struct batch *batch, struct item *item) {
    const char *path = batch->paths.bytes + item->path;
    struct read front = {.fault = item->fault ? strerror(item->fault) : NULL};
    if (!item->is_walked && !item->is_input && strlen(path) != item->path_size)
        front.fault = "a name with a zero byte";
    else if (item->is_input)
        read_input(labeller, &front);
    else if (!front.fault)
        read_path(labeller, path, item, &front);
    release_folder(item->folder);
    item->line = batch->lines.size;
    item->bytes = front.bytes;
    item->is_fault = front.fault != NULL;
    if (front.fault) {
        infer_label_options line = labeller->options->line;
        line.flags &= ~(uint32_t)(labeller->options->is_columns || labeller->options->is_summary ? INFER_LABEL_NO_NAME : 0);
        put_note(&line, path, item->path_size, INFER_LABEL_FAULT, front.fault, &batch->lines);
        item->is_told = true;
    } else if (front.kind)
        put_kind(labeller, path, item->path_size, front.kind, item, &batch->lines);
    else
        put_told(labeller, path, item->path_size, &front, item, &batch->lines);
    item->line_size = batch->lines.size - item->line;
}

void label_batch(struct labeller *labeller, struct batch *batch) {
    for (size_t i = 0; i < batch->count; i++)
        label_item(labeller, batch, &batch->items[i]);
}
