/* What a refused lookup was of. Expected and found are the library's; the table says which cell and which word they are
 * of. Both 0 is the library's word for a cell out of range. docs/VERDICTS.md, "Expected and found", has the same words
 * (tests/cli_lookups.py). */
#include "cli.h"

/* a rule that looks cells up: the columns of the first cell's number and of the first word, and how many there are */
struct lookup {
    uint32_t verdict, rule;
    unsigned cell, word, count;
};
static const struct lookup lookups[] = {
    {UISNABAR_EXEC, 2, 2, 5, 1},       {UISNABAR_EXEC, 3, 3, 6, 1},       {UISNABAR_EXEC, 4, 4, 7, 1},
    {UISNABAR_EXTENSION, 18, 5, 9, 1}, {UISNABAR_EXTENSION, 19, 5, 10, 5}, {UISNABAR_EXTENSION, 20, 6, 15, 5},
    {UISNABAR_EXTENSION, 21, 7, 25, 5},
};
enum { LOOKUPS = sizeof lookups / sizeof lookups[0] };

static const struct lookup *lookup_of(struct answer answer)
{
    for (int i = 0; i < LOOKUPS; i++)
        if (lookups[i].verdict == answer.verdict && lookups[i].rule == answer.rule)
            return &lookups[i];
    return NULL;
}

/* the first word that is not its cell's; that one isn't, the library said, so the last where all before it are */
static unsigned differing(const struct given *given, size_t cell, struct bytes table, size_t word, unsigned count)
{
    unsigned at = 0;
    while (at + 1 < count && word_in(given, MEMORY, cell + at) == word_of(table, word + at))
        at++;
    return at;
}

static void range_sentence(FILE *out, size_t cell, unsigned count, size_t cells)
{
    if (count == 1)
        fprintf(out, "; cell %zu is not below M = %zu, the number of cells", cell, cells);
    else
        fprintf(out, "; of cells %zu to %zu, cell %zu is the first not below M = %zu, the number of cells", cell, cell + count - 1,
                cell < cells ? cells : cell, cells);
}

void lookup_sentence(FILE *out, const struct given *given, struct answer answer)
{
    const struct lookup *lookup = lookup_of(answer);
    if (!lookup)
        return;
    struct bytes table = given->part[answer.part];
    size_t row = (size_t)answer.place * layouts[answer.part].words, word = row + lookup->word;
    size_t cell = word_of(table, row + lookup->cell);
    if (answer.expected == 0 && answer.found == 0) {
        range_sentence(out, cell, lookup->count, rows_of(given, MEMORY));
        return;
    }
    unsigned at = differing(given, cell, table, word, lookup->count);
    char name[32];
    column_name(answer.part, word + at, name);
    fprintf(out, "; cell %zu holds %u, %s is %u", cell + at, answer.expected, name, answer.found);
    cell_sentence(out, given, cell + at);
}
