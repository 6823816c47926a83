/* The files to tell of, in their order: words, names that end in a zero byte, and what stands in folders. */
#include "program.h"
#include <dirent.h>
#include <errno.h>
#include <fcntl.h>
#include <fnmatch.h>
#include <stddef.h>
#include <stdlib.h>
#include <string.h>
#include <sys/resource.h>
#include <sys/stat.h>
#include <unistd.h>

/* How many folders are open at once at most, and what part of the descriptors that the system gives. */
enum { MOST_FOLDERS = 256, PART_OF_DESCRIPTORS = 4 };
static atomic_uint open_folders;

/* A folder that is walked, in the order of names, and the folder that it is in. */
struct level {
    struct level *outer;
    struct folder *folder; /* or a null pointer, if too many are open */
    struct dirent **entries;
    int count, next;
    size_t path_size; /* how much of the path is the folder's, with a slash */
    dev_t system;
    ino_t number;
};

struct inputs {
    const struct options *options;
    char **paths;       /* the words that are left */
    FILE *names;        /* the names that are left, or a null pointer */
    struct level *walk; /* the innermost folder that is walked, or a null pointer */
    struct text path;   /* of the entry where the walk is */
    char *name;
    size_t name_room;
    bool has_failed;
};

/* Tells why the names cannot be read. */
static void tell_names(const struct options *options) {
    char why[128];
    snprintf(why, sizeof why, ": %s", strerror(errno));
    tell_file(options->files0, why);
}

struct inputs *open_inputs(const struct options *options, char **paths) {
    static char standard_input[] = "-";
    static char *input[] = {standard_input, NULL};
    static struct inputs the_inputs;
    struct inputs *inputs = &the_inputs;
    inputs->options = options;
    inputs->paths = *paths || options->files0 ? paths : input;
    if (options->files0)
        inputs->names = strcmp(options->files0, "-") == 0 ? stdin : fopen(options->files0, "rb");
    if (options->files0 && !inputs->names) {
        tell_names(options);
        exit(FAILED);
    }
    return inputs;
}

static struct item *add_item(struct batch *batch, const char *path, size_t size) {
    struct item *item = &batch->items[batch->count++];
    *item = (struct item){.path = batch->paths.size, .path_size = size};
    put_bytes(&batch->paths, path, size);
    put_bytes(&batch->paths, "", 1);
    return item;
}

static int by_name(const void *left, const void *right) {
    const struct dirent *const *one = left, *const *other = right;
    return strcmp((*one)->d_name, (*other)->d_name);
}

static int is_entry(const struct dirent *it) { return strcmp(it->d_name, ".") != 0 && strcmp(it->d_name, "..") != 0; }

/* Makes the path that of the entry with this name, after so many bytes that stay. */
static void set_path(struct inputs *inputs, size_t size, const char *name) {
    inputs->path.size = size;
    put_bytes(&inputs->path, name, strlen(name) + 1);
    inputs->path.size--;
}

static struct item *add_path(struct inputs *inputs, struct batch *batch) { return add_item(batch, inputs->path.bytes, inputs->path.size); }

/* Keeps an open folder for its files, or closes it if there are not descriptors enough: then their paths serve. */
static struct folder *keep_folder(int fd) {
    struct rlimit limit = {0};
    getrlimit(RLIMIT_NOFILE, &limit);
    if (open_folders >= MOST_FOLDERS || open_folders >= limit.rlim_cur / PART_OF_DESCRIPTORS) {
        close(fd);
        return NULL;
    }
    struct folder *folder = allocated(malloc(sizeof *folder));
    folder->fd = fd;
    atomic_init(&folder->users, 1);
    open_folders++;
    return folder;
}

void release_folder(struct folder *folder) {
    if (!folder || atomic_fetch_sub(&folder->users, 1) > 1)
        return;
    close(folder->fd);
    free(folder);
    open_folders--;
}

/* Adds the entry of the innermost folder whose path this is. */
static void add_entry(struct inputs *inputs, struct batch *batch, const struct dirent *entry) {
    struct level *level = inputs->walk;
    struct item *item = add_path(inputs, batch);
    item->is_walked = true;
    item->is_regular = entry->d_type == DT_REG;
    item->folder = level->folder;
    item->name = level->path_size;
    if (item->folder)
        atomic_fetch_add(&item->folder->users, 1);
}

/* Opens the folder with the path, by its name in the innermost one if that is open: then no path is too long. */
static int open_folder(const struct inputs *inputs) {
    const struct level *level = inputs->walk;
    const struct folder *outer = level ? level->folder : NULL;
    const char *name = inputs->path.bytes + (outer ? level->path_size : 0);
    return openat(outer ? outer->fd : AT_FDCWD, name, O_RDONLY | O_DIRECTORY | O_CLOEXEC | (level ? O_NOFOLLOW : 0));
}

/* Puts the entries that are left behind those of the level. */
static bool read_entries(struct level *level, DIR *folder) {
    const struct dirent *entry;
    size_t room = 0;
    while (errno = 0, (entry = readdir(folder))) {
        if (!is_entry(entry))
            continue;
        if ((size_t)level->count == room)
            level->entries = allocated(realloc(level->entries, (room = 2 * room + 16) * sizeof *level->entries));
        size_t size = offsetof(struct dirent, d_name) + strlen(entry->d_name) + 1;
        level->entries[level->count++] = memcpy(allocated(malloc(size)), entry, size);
    }
    return errno == 0;
}

/* Lists an open folder in the order of names. */
static bool list_folder(struct level *level, int fd) {
    int again = fcntl(fd, F_DUPFD_CLOEXEC, 0);
    DIR *folder = again < 0 ? NULL : fdopendir(again);
    if (!folder)
        return false;
    bool is_whole = read_entries(level, folder);
    int fault = errno;
    closedir(folder);
    errno = fault;
    if (level->count > 0)
        qsort(level->entries, (size_t)level->count, sizeof *level->entries, by_name);
    return is_whole;
}

/* Begins to walk the folder with the path. */
static void enter(struct inputs *inputs, struct batch *batch, const struct stat *about) {
    struct level *level = allocated(malloc(sizeof *level));
    *level = (struct level){.outer = inputs->walk, .system = about->st_dev, .number = about->st_ino};
    int fd = open_folder(inputs);
    bool is_listed = fd >= 0 && list_folder(level, fd);
    int fault = errno;
    if (!is_listed)
        add_path(inputs, batch)->fault = fault;
    put_text(&inputs->path, inputs->path.bytes[inputs->path.size - 1] == '/' ? "" : "/");
    level->path_size = inputs->path.size;
    level->folder = fd < 0 ? NULL : keep_folder(fd);
    inputs->walk = level;
}

static void leave(struct inputs *inputs) {
    struct level *level = inputs->walk;
    inputs->walk = level->outer;
    release_folder(level->folder);
    for (int i = 0; i < level->count; i++)
        free(level->entries[i]);
    free(level->entries);
    free(level);
}

/* Whether an entry of a folder is left out: by its last name, or by all of it if there is a slash in what is excluded. */
static bool is_excluded(const struct options *options, const char *path, const char *name) {
    for (size_t i = 0; i < options->excluded_count; i++) {
        const char *it = options->excluded[i];
        if (fnmatch(it, strchr(it, '/') ? path : name, 0) == 0)
            return true;
    }
    return false;
}

/* Whether the folder is one that the walk is in: a broken file system can have such a loop. */
static bool is_loop(const struct level *level, const struct stat *about) {
    while (level && (level->number != about->st_ino || level->system != about->st_dev))
        level = level->outer;
    return level != NULL;
}

/* Adds the next entry of the walk, or enters it. A call is made only where it can be a folder: threads ask what the others are. */
static void step(struct inputs *inputs, struct batch *batch) {
    struct level *level = inputs->walk;
    struct stat about;
    if (level->next == level->count) {
        leave(inputs);
        return;
    }
    const struct dirent *entry = level->entries[level->next++];
    set_path(inputs, level->path_size, entry->d_name);
    if (is_excluded(inputs->options, inputs->path.bytes, entry->d_name))
        return;
    bool is_asked = entry->d_type == DT_DIR || entry->d_type == DT_UNKNOWN;
    int at = level->folder ? level->folder->fd : AT_FDCWD;
    const char *name = inputs->path.bytes + (level->folder ? level->path_size : 0);
    int fault = is_asked && fstatat(at, name, &about, AT_SYMLINK_NOFOLLOW) != 0 ? errno : 0;
    if (fault)
        add_path(inputs, batch)->fault = fault;
    else if (!is_asked || !S_ISDIR(about.st_mode))
        add_entry(inputs, batch, entry);
    else if (is_loop(level, &about))
        add_path(inputs, batch)->fault = ELOOP;
    else if (!inputs->options->is_one_system || about.st_dev == level->system)
        enter(inputs, batch, &about);
}

/* Adds a path, or enters it if it is that of a folder to walk. */
static void begin(struct inputs *inputs, struct batch *batch, const char *path, size_t size) {
    struct stat about;
    if (!inputs->options->is_walk || stat(path, &about) != 0 || !S_ISDIR(about.st_mode)) {
        add_item(batch, path, size);
        return;
    }
    set_path(inputs, 0, path);
    enter(inputs, batch, &about);
}

static void add_word(struct inputs *inputs, struct batch *batch) {
    char *word = *inputs->paths++;
    if (strcmp(word, "-") != 0) {
        begin(inputs, batch, word, strlen(word));
        return;
    }
    const char *name = inputs->options->input_name;
    add_item(batch, name, strlen(name))->is_input = true;
}

/* Adds the next of the names that end in a zero byte. The last may lack it. */
static void add_name(struct inputs *inputs, struct batch *batch) {
    ssize_t size = getdelim(&inputs->name, &inputs->name_room, 0, inputs->names);
    if (size < 0) {
        if (ferror(inputs->names)) {
            tell_names(inputs->options);
            inputs->has_failed = true;
        }
        if (inputs->names != stdin)
            fclose(inputs->names);
        inputs->names = NULL;
        return;
    }
    size_t length = size > 0 && inputs->name[size - 1] == 0 ? (size_t)size - 1 : (size_t)size;
    begin(inputs, batch, inputs->name, length);
}

/* Takes the next files, and answers whether there were some. */
bool fill_batch(struct inputs *inputs, struct batch *batch) {
    size_t most = inputs->options->is_terminal ? 1 : BATCH;
    batch->count = batch->paths.size = batch->lines.size = 0;
    while (batch->count < most) {
        if (inputs->walk)
            step(inputs, batch);
        else if (*inputs->paths)
            add_word(inputs, batch);
        else if (inputs->names)
            add_name(inputs, batch);
        else
            break;
    }
    return batch->count > 0;
}

bool close_inputs(struct inputs *inputs) {
    bool is_whole = !inputs->has_failed;
    while (inputs->walk)
        leave(inputs);
    if (inputs->names && inputs->names != stdin)
        fclose(inputs->names);
    free(inputs->path.bytes);
    free(inputs->name);
    return is_whole;
}
