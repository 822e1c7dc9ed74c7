/* Document 01, "Layouts", and draft 0.5.0, 3.1.3: what the parts, their rows and their columns are called. */
#include "cli.h"

const struct layout layouts[LAYOUTS] = {
    [PROGRAM] = {"program", "instruction", 12, "1 to 1048576 instructions of 48 bytes"},
    [MEMORY] = {"memory", "memory cell", 1, "2^m words of 4 bytes, m from 8 to 29"},
    [EXEC] = {"execution table", "execution row", 8, "H rows of 32 bytes, H a power of two from 2^8 to 2^25"},
    [EXT] = {"extension table", "extension row", 30, "K rows of 120 bytes, K a power of two from 2^8 to 2^20"},
    [OLD] = {"program of draft 0.5.0", "instruction", 14, "1 to 1048576 instructions of 56 bytes"},
};

/* columns in order; an element is five words */
struct column {
    const char *name;
    unsigned words;
};
static const struct column instruction[] = {{"A", 1},   {"B", 1},    {"C", 1},   {"fA", 1},   {"fB", 1},  {"fC", 1},
                                            {"fpC", 1}, {"fpAB", 1}, {"MUL", 1}, {"JUMP", 1}, {"AUX", 1}, {"DATA", 1}};
static const struct column cell[] = {{"word", 1}};
static const struct column exec[] = {{"pc", 1},     {"fp", 1},      {"addr A", 1},  {"addr B", 1},
                                     {"addr C", 1}, {"value A", 1}, {"value B", 1}, {"value C", 1}};
static const struct column ext[] = {{"start", 1}, {"add", 1},  {"mul", 1},  {"peq", 1}, {"len", 1}, {"idxA", 1}, {"idxB", 1}, {"idxR", 1},
                                    {"be", 1},    {"vA base", 1}, {"vA", 5}, {"vB", 5},  {"comp", 5}, {"res", 5}};
static const struct column old[] = {{"operand A", 1}, {"operand B", 1}, {"operand C", 1}, {"flag A", 1}, {"flag B", 1},
                                    {"flag C", 1},    {"ADD", 1},       {"MUL", 1},       {"DEREF", 1},  {"JUMP", 1},
                                    {"IS_PRECOMPILE", 1}, {"PRECOMPILE_INDEX", 1}, {"AUX_1", 1}, {"AUX_2", 1}};
static const struct column *const columns[LAYOUTS] = {
    [PROGRAM] = instruction, [MEMORY] = cell, [EXEC] = exec, [EXT] = ext, [OLD] = old};

uint32_t word_at(const uint8_t *at)
{
    return (uint32_t)at[0] | (uint32_t)at[1] << 8 | (uint32_t)at[2] << 16 | (uint32_t)at[3] << 24;
}

uint32_t word_of(struct bytes part, size_t place)
{
    return place < part.len / 4 ? word_at(part.at + 4 * place) : 0;
}

static size_t before(const struct given *given, uint32_t part) { return part == MEMORY ? given->public.len : 0; }

uint32_t word_in(const struct given *given, uint32_t part, size_t place)
{
    size_t public = before(given, part) / 4;
    return place < public ? word_of(given->public, place) : word_of(given->part[part], place - public);
}

size_t bytes_in(const struct given *given, uint32_t part) { return before(given, part) + given->part[part].len; }

size_t rows_of(const struct given *given, uint32_t part)
{
    return bytes_in(given, part) / 4 / layouts[part].words;
}

/* the name of the column that a word of a part stands in, with its coordinate where the column is an element */
void column_name(uint32_t part, size_t place, char name[32])
{
    const struct column *column = columns[part];
    size_t word = place % layouts[part].words;
    for (; word >= column->words; column++)
        word -= column->words;
    if (column->words == 1)
        snprintf(name, 32, "%s", column->name);
    else
        snprintf(name, 32, "%s[%zu]", column->name, word);
}

/* one line: what the row is, and each column by name */
void print_row(FILE *out, const struct given *given, uint32_t part, size_t row)
{
    size_t first = row * layouts[part].words;
    char name[32];
    fprintf(out, "%s %zu:", layouts[part].row, row);
    for (size_t place = first; place < first + layouts[part].words; place++) {
        column_name(part, place, name);
        fprintf(out, "%s %s=%u", place == first ? "" : ",", name, word_in(given, part, place));
    }
    fputc('\n', out);
}
