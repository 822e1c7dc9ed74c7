/* A file that is replaced whole, or stays as it was: a grid, or a program that was translated or assembled.
 *
 * What is to replace it stands beside it as .NAME.counting, .translating or .assembling, and is renamed at the end. It
 * is the lock too, so that nothing stays behind: renamed or removed by the one that holds it, it sets those free that
 * wait, and they begin anew. One that a killed command left is taken over by the next. */
#define _GNU_SOURCE
#include <errno.h>
#include <fcntl.h>
#include <string.h>
#include <sys/file.h>
#include <sys/stat.h>
#include <unistd.h>

#include "cli.h"

static int name_next(struct next *next)
{
    const char *slash = strrchr(next->path, '/'), *name = slash ? slash + 1 : next->path;
    int room = sizeof next->name, folder = (int)(name - next->path);
    if (!*name)
        return failed("\"%s\" names no file for a %s", next->path, next->what);
    if (snprintf(next->name, (size_t)room, "%.*s.%s.%s", folder, next->path, name, next->doing) >= room)
        return failed("%s: %s", next->path, strerror(ENAMETOOLONG));
    return 0;
}

static bool same(const struct stat *a, const struct stat *b) { return a->st_dev == b->st_dev && a->st_ino == b->st_ino; }

/* whether the name still stands for the open file: the command that had it has renamed or removed it at its end */
static bool stands(const char *name, int file)
{
    struct stat named, opened;
    return lstat(name, &named) == 0 && fstat(file, &opened) == 0 && same(&named, &opened);
}

static int lock(struct next *next)
{
    bool locked = false;
    while (!locked) {
        next->file = open(next->name, O_RDWR | O_CREAT | O_NOFOLLOW | QUIETLY, 0666);
        if (next->file < 0)
            return failed("%s: nothing can be written beside it, to %s: %s", next->path, next->name, strerror(errno));
        if (flock(next->file, LOCK_EX) != 0)
            return failed("%s: cannot be locked: %s", next->name, strerror(errno));
        locked = stands(next->name, next->file);
        if (!locked)
            close(next->file);
    }
    return 0;
}

int regular(const char *path, const char *what, int file, struct stat *is)
{
    if (file < 0 || fstat(file, is) != 0)
        return failed("%s: %s", path, strerror(errno));
    if (!S_ISREG(is->st_mode))
        return failed("%s: not a regular file, and so no %s", path, what);
    return 0;
}

/* the file that is to be replaced, where there is one; one that may not be written is not replaced either */
static int open_old(struct next *next)
{
    struct stat is;
    next->old = open(next->path, O_RDWR | O_NOFOLLOW | QUIETLY);
    if (next->old < 0 && errno == ENOENT)
        return 0;
    if (next->old < 0 && errno == ELOOP)
        return failed("%s: a symbolic link: name the %s itself, which is replaced", next->path, next->what);
    int status = regular(next->path, next->what, next->old, &is);
    if (status == 0 && next->listing && same(next->listing, &is))
        status = failed("%s: LISTING and PROGRAM are one file: the program would take the listing's place", next->path);
    if (status == 0)
        next->mode = is.st_mode & 07777;
    return status;
}

int take_next(struct next *next)
{
    if (name_next(next) || lock(next))
        return FAILED;
    if (open_old(next) == 0)
        return 0;
    leave_next(next);
    return FAILED;
}

static int prepare(const struct next *next, struct bytes bytes)
{
    errno = ENOSPC; /* what a write that stops halfway means, and does not say */
    bool written = (next->old < 0 || fchmod(next->file, next->mode) == 0) && ftruncate(next->file, 0) == 0 &&
                   write(next->file, bytes.at, bytes.len) == (ssize_t)bytes.len && fsync(next->file) == 0;
    return written ? 0 : failed("%s: cannot be written: %s", next->name, strerror(errno));
}

static void let_go(const struct next *next)
{
    if (next->old >= 0)
        close(next->old);
    close(next->file);
}

int replace(const struct next *next, struct bytes bytes, struct answer answer)
{
    int status = prepare(next, bytes);
    if (status == 0) {
        print_lines(stdout, answer);
        status = written();
    }
    if (status == 0 && rename(next->name, next->path) == 0)
        return let_go(next), 0;
    if (status == 0)
        status = failed("%s: cannot be replaced: %s", next->path, strerror(errno));
    leave_next(next);
    return status;
}

/* the name goes before the lock */
void leave_next(const struct next *next)
{
    unlink(next->name);
    let_go(next);
}
