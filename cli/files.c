/* Files handed in: tables are mapped and not copied, a label is read. */
#define _POSIX_C_SOURCE 200809L
#include <errno.h>
#include <fcntl.h>
#include <signal.h>
#include <string.h>
#include <sys/mman.h>
#include <sys/stat.h>
#include <unistd.h>

#include "cli.h"

/* a page of a mapped file is gone: whatever the judge made of the rest is no answer */
static void lost(int signal)
{
    static const char text[] = "uisnabar: " LOST "\n";
    ssize_t said = write(STDERR_FILENO, text, sizeof text - 1);
    (void)signal, (void)said;
    _exit(FAILED);
}

static int map(const char *path, int file, size_t len, struct bytes *mapped)
{
    void *at = mmap(NULL, len, PROT_READ, MAP_PRIVATE, file, 0);
    if (at == MAP_FAILED)
        return failed("%s: cannot be mapped: %s", path, strerror(errno));
    signal(SIGBUS, lost);
    *mapped = (struct bytes){at, len};
    return 0;
}

int map_known(const char *path, struct bytes *mapped, struct stat *is)
{
    int status = 0;
    int file = open(path, O_RDONLY | O_NONBLOCK | O_NOCTTY | O_CLOEXEC); /* a pipe must not keep it waiting */
    *mapped = (struct bytes){NULL, 0};
    if (file < 0)
        return failed("%s: %s", path, strerror(errno));
    if (fstat(file, is) != 0)
        status = failed("%s: %s", path, strerror(errno));
    else if (!S_ISREG(is->st_mode))
        status = failed("%s: not a regular file: write what it holds to a file, and hand that in", path);
    else if (is->st_size > 0) /* no mapping has 0 bytes */
        status = map(path, file, (size_t)is->st_size, mapped);
    close(file);
    return status;
}

int map_file(const char *path, struct bytes *mapped)
{
    struct stat is;
    return map_known(path, mapped, &is);
}

int read_text(const char *path, uint8_t *text, size_t room, size_t *len)
{
    int file = path ? open(path, O_RDONLY | O_NOCTTY | O_CLOEXEC) : STDIN_FILENO;
    ssize_t got = file < 0 ? -1 : 1;
    for (*len = 0; got > 0 && *len < room; *len += got > 0 ? (size_t)got : 0)
        got = read(file, text + *len, room - *len);
    if (got < 0)
        return failed("%s: %s", path ? path : "standard input", strerror(errno));
    return 0;
}
