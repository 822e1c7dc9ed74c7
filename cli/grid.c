/* A grid in a file. Counts into one grid come one after the other: cli/replace.c. */
#define _POSIX_C_SOURCE 200809L
#include <fcntl.h>
#include <sys/stat.h>
#include <unistd.h>

#include "cli.h"

static int read_open(const char *path, int file, uint8_t bytes[UISNABAR_GRID_BYTES])
{
    struct stat is;
    if (regular(path, "grid", file, &is))
        return FAILED;
    if (is.st_size != UISNABAR_GRID_BYTES)
        return failed("%s: %jd bytes, and no grid, which has %d; where there is no file, count makes a fresh grid", path,
                      (intmax_t)is.st_size, UISNABAR_GRID_BYTES);
    if (read(file, bytes, UISNABAR_GRID_BYTES) != UISNABAR_GRID_BYTES)
        return failed("%s: cannot be read whole", path);
    return 0;
}

int read_grid(const char *path, uint8_t bytes[UISNABAR_GRID_BYTES])
{
    int file = open(path, O_RDONLY | QUIETLY);
    int status = read_open(path, file, bytes);
    if (file >= 0)
        close(file);
    return status;
}

/* the grid that is to be replaced, all zero where there is none */
int take_grid(const char *path, struct grid *grid)
{
    *grid = (struct grid){.next = {.path = path, .what = "grid", .doing = "counting"}};
    if (take_next(&grid->next))
        return FAILED;
    if (grid->next.old < 0 || read_open(path, grid->next.old, grid->bytes) == 0)
        return 0;
    leave_next(&grid->next);
    return FAILED;
}
