/* uisnabar ranges: judges, and says which cells an accepted table's range checks hold below which bounds. */
#include <stdlib.h>

#include "cli.h"

/* no execution table has more rows; and the columns of a row that have the cell's number and its word */
enum { MOST_ROWS = 1 << 25, ADDR_A = 2, VALUE_A = 5 };

struct finds {
    uint8_t *at;
    size_t room, count;
};

/* so much that no table is LIST; what the finds leave of it is never touched, and so takes no memory */
static size_t room_for(const struct given *given)
{
    size_t rows = rows_of(given, EXEC);
    return UISNABAR_FIND_BYTES * (rows < MOST_ROWS ? rows : MOST_ROWS);
}

static struct answer ask(const struct given *given, struct finds *finds)
{
    const struct bytes *part = given->part;
    uint8_t bytes[UISNABAR_ANSWER_BYTES] = {0}, found[UISNABAR_FOUND_BYTES] = {0};
    uint32_t verdict = uisnabar_ranges(part[PROGRAM].at, part[PROGRAM].len, part[MEMORY].at, part[MEMORY].len, given->pc, given->fp,
                                       part[EXEC].at, part[EXEC].len, part[EXT].at, part[EXT].len, finds->at, finds->room, found,
                                       sizeof found, bytes, sizeof bytes);
    finds->count = word_at(found);
    return answer_of(verdict, bytes);
}

/* of an accepted table: by rules 5 and 2 addr A is the cell that the first DEREF reads, and value A its word */
static void print_find(FILE *out, struct bytes exec, const uint8_t *find)
{
    uint32_t row = word_at(find), bound = word_at(find + 4);
    size_t first = (size_t)row * layouts[EXEC].words;
    fprintf(out, "row=%u cell=%u bound=%u value=%u\n", row, word_of(exec, first + ADDR_A), bound, word_of(exec, first + VALUE_A));
}

/* standard output is for finds alone, as of a listing: a refusal's lines stand before its sentence */
int ranges(int count, char **words)
{
    struct request request = {.name = "ranges", .takes = TABLES};
    const struct given *given = &request.given;
    if (take_tables(count, words, &request))
        return FAILED;
    struct finds finds = {.room = room_for(given)};
    finds.at = malloc(finds.room + 1); /* never of 0 bytes, which may be none */
    if (!finds.at)
        return failed("there is no memory for the %zu bytes that the finds may have", finds.room);
    struct answer answer = ask(given, &finds);
    for (size_t i = 0; i < finds.count; i++)
        print_find(stdout, given->part[EXEC], finds.at + UISNABAR_FIND_BYTES * i);
    free(finds.at);
    if (written())
        return FAILED;
    if (answer.verdict != UISNABAR_ACCEPTED)
        print_lines(stderr, answer);
    ranges_sentence(stderr, given, answer, finds.count);
    return status_of(answer);
}
