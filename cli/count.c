/* uisnabar count: judges, and counts the forms of an accepted table's rows into a grid. */
#include "cli.h"

static struct answer ask(const struct given *given, uint8_t grid[UISNABAR_GRID_BYTES])
{
    const struct bytes *part = given->part;
    uint8_t bytes[UISNABAR_ANSWER_BYTES] = {0};
    uint32_t verdict =
        uisnabar_count(part[PROGRAM].at, part[PROGRAM].len, part[MEMORY].at, part[MEMORY].len, given->pc, given->fp, part[EXEC].at,
                       part[EXEC].len, part[EXT].at, part[EXT].len, grid, UISNABAR_GRID_BYTES, bytes, sizeof bytes);
    return answer_of(verdict, bytes);
}

static int give(struct answer answer, const struct grid *grid)
{
    if (answer.verdict == UISNABAR_ACCEPTED)
        return replace(&grid->next, (struct bytes){grid->bytes, sizeof grid->bytes}, answer);
    print_lines(stdout, answer);
    leave_next(&grid->next);
    return written();
}

int count_forms(int count, char **words)
{
    struct request request = {.name = "count", .takes = "GRID, and then " TABLES, .grids = 1};
    struct grid grid;
    int status = take_tables(count, words, &request);
    if (status == 0)
        status = take_grid(request.files[0], &grid);
    if (status)
        return status;
    struct answer answer = ask(&request.given, grid.bytes);
    if (give(answer, &grid))
        return FAILED;
    count_sentence(stderr, &request.given, answer, grid.bytes);
    return status_of(answer);
}
