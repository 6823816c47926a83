/* What is no regular file with contents: a directory, a link, a device, a FIFO, a socket, an empty file. */
#define _DEFAULT_SOURCE
#include "magic_set.h"
#include <errno.h>
#include <limits.h>
#include <stdio.h>
#include <sys/stat.h>
#include <sys/sysmacros.h>
#include <unistd.h>

void say_unreadable(struct magic_set *it, const char *path) {
    struct stat about;
    if (access(path, W_OK) == 0) say(it, "writable, ");
    if (access(path, X_OK) == 0) say(it, "executable, ");
    if (stat(path, &about) == 0 && S_ISREG(about.st_mode)) say(it, "regular file, ");
    say(it, "no read permission");
}

/* The bits of the mode that are said before all else. */
static void say_bits(struct magic_set *it, mode_t mode) {
    const struct { mode_t bit; const char *name; } BITS[] = {{S_ISUID, "setuid"}, {S_ISGID, "setgid"}, {S_ISVTX, "sticky"}};
    if (it->flags & (MAGIC_MIME | MAGIC_APPLE | MAGIC_EXTENSION)) return;
    for (size_t at = 0; at < sizeof BITS / sizeof BITS[0]; at++)
        if (mode & BITS[at].bit) say(it, "%s%s", it->said_len ? ", " : "", BITS[at].name);
}

/* Says the name of such a thing, or, without a flag, the words for it. */
static int say_inode(struct magic_set *it, const char *name, const char *words) {
    int flags = it->flags;
    if (flags & MAGIC_MIME_TYPE) say(it, "inode/%s", name);
    if ((flags & MAGIC_MIME) == MAGIC_MIME) say(it, "; charset=");
    if (flags & MAGIC_MIME_ENCODING) say(it, "binary");
    if (flags & MAGIC_MIME) return 1;
    if (flags & MAGIC_APPLE) say(it, "UNKNUNKN");
    else if (flags & MAGIC_EXTENSION) say(it, "???");
    else say(it, "%s%s", it->said_len ? ", " : "", words);
    return 1;
}

static int say_device(struct magic_set *it, const char *name, const char *words, dev_t device) {
    char all[80];
    snprintf(all, sizeof all, "%s special (%u/%u)", words, major(device), minor(device));
    return say_inode(it, name, all);
}

static int say_broken(struct magic_set *it, const char *target, int fault) {
    if (it->flags & MAGIC_MIME) {
        if (it->flags & MAGIC_MIME_TYPE) say(it, "inode/symlink");
        return 1;
    }
    if (!(it->flags & MAGIC_ERROR)) {
        say(it, "broken symbolic link to %s", target);
        return 1;
    }
    fail(it, fault, "broken symbolic link to %s", target);
    return -1;
}

static int say_link(struct magic_set *it, const char *path) {
    char target[PATH_MAX], words[PATH_MAX + 32];
    struct stat about;
    ssize_t len = readlink(path, target, sizeof target - 1);
    if (len <= 0) return say_inode(it, "symlink", "unreadable symlink");
    target[len] = '\0';
    if (stat(path, &about) != 0) return say_broken(it, target, errno);
    snprintf(words, sizeof words, "symbolic link to %s", target);
    return say_inode(it, "symlink", words);
}

/* Says why there is nothing to be asked about. */
static int say_missing(struct magic_set *it, const char *path, int fault) {
    char reason[256];
    if (it->flags & MAGIC_ERROR) {
        fail(it, fault, "cannot stat `%s'", path);
        return -1;
    }
    say(it, "cannot open `%s' (%s)", path, reason_of(fault, reason, sizeof reason));
    return 1;
}

/* Whether nothing is said of what has no contents. */
static bool is_silent(const struct magic_set *it) {
    return it->flags & (MAGIC_APPLE | MAGIC_EXTENSION) && !(it->flags & MAGIC_MIME);
}

static int say_directory(struct magic_set *it, const char *path) {
    if (!is_silent(it)) return say_inode(it, "directory", "directory");
    fail(it, EISDIR, "cannot read `%s'", path);
    return -1;
}

int say_kind(struct magic_set *it, const char *path, const struct stat *about) {
    bool reads_devices = it->flags & MAGIC_DEVICES;
    say_bits(it, about->st_mode);
    switch (about->st_mode & S_IFMT) {
    case S_IFDIR: return say_directory(it, path);
    case S_IFLNK: return say_link(it, path);
    case S_IFSOCK: return say_inode(it, "socket", "socket");
    case S_IFIFO: return say_inode(it, "fifo", "fifo (named pipe)");
    case S_IFCHR: return reads_devices ? 0 : say_device(it, "chardevice", "character", about->st_rdev);
    case S_IFBLK: return reads_devices ? 0 : say_device(it, "blockdevice", "block", about->st_rdev);
    default: break;
    }
    if (about->st_size == 0 && !reads_devices) return say_inode(it, "x-empty", "empty");
    /* What comes after the bits is said of the contents. */
    if (it->said_len != 0) say(it, " , ");
    return 0;
}

int say_special(struct magic_set *it, const char *path) {
    struct stat about, target;
    if ((it->flags & MAGIC_SYMLINK ? stat(path, &about) : lstat(path, &about)) != 0) return say_missing(it, path, errno);
    if (S_ISLNK(about.st_mode) && is_silent(it) && stat(path, &target) == 0) about = target;
    return say_kind(it, path, &about);
}
