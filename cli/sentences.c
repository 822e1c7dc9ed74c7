/* One sentence for each answer, that a person can act on. docs/VERDICTS.md has the same words (tests/cli_page.py). */
#include <string.h>

#include "cli.h"

#define P "2130706433"

struct rule {
    unsigned number;
    bool next; /* it reads the next row too */
    const char *words;
};

static const struct rule execution[] = {
    {1, false, "pc in program: pc must be below the number of instructions"},
    {2, false, "lookup A: value A must be the cell at address A"},
    {3, false, "lookup B: value B must be the cell at address B"},
    {4, false, "lookup C: value C must be the cell at address C"},
    {5, false, "address A: where operand A is a cell read, address A must be fp + operand A"},
    {6, false, "address B: where operand B is a cell read, address B must be fp + operand B"},
    {7, false, "address C: where operand C is a cell read, address C must be fp + operand C"},
    {8, false, "ADD: selected B must be selected A + selected C"},
    {9, false, "MUL: selected B must be selected A times selected C"},
    {10, false, "DEREF address: address B must be value A + operand B"},
    {11, false, "DEREF value: value B must be selected C"},
    {12, false, "JUMP condition: selected A must be 0 or 1"},
    {13, true, "JUMP taken, pc: the next pc must be selected B"},
    {14, true, "JUMP taken, fp: the next fp must be selected C"},
    {15, true, "no JUMP taken, pc: the next pc must be pc + 1"},
    {16, true, "no JUMP taken, fp: the next fp must be fp"},
    {0, false, NULL},
};

static const struct rule extension[] = {
    {18, false, "lookup vA base: vA base must be the cell at idxA"},
    {19, false, "lookup vA: vA must be the five cells from idxA on"},
    {20, false, "lookup vB: vB must be the five cells from idxB on"},
    {21, false, "lookup res: res must be the five cells from idxR on"},
    {1, false, "flag be: be must be 0 or 1"},
    {2, false, "flag start: start must be 0 or 1"},
    {3, false, "flag add: add must be 0 or 1"},
    {4, false, "flag mul: mul must be 0 or 1"},
    {5, false, "flag peq: peq must be 0 or 1"},
    {6, true, "add: comp must be selected vA + vB, plus the next comp where the next start is 0"},
    {7, true, "mul: comp must be selected vA times vB, plus the next comp where the next start is 0"},
    {8, true, "peq: comp must be peq of selected vA and vB, times the next comp where the next start is 0"},
    {9, false, "result: where start is 1, padding too, comp must be res"},
    {10, true, "same group, len: where the next start is not 1, len must be the next len + 1"},
    {11, true, "same group, be: where the next start is not 1, the next row must have the same be"},
    {12, true, "same group, add: where the next start is not 1, the next row must have the same add"},
    {13, true, "same group, mul: where the next start is not 1, the next row must have the same mul"},
    {14, true, "same group, peq: where the next start is not 1, the next row must have the same peq"},
    {15, true, "same group, idxA: where the next start is not 1, the next idxA must be idxA + 5, or with be idxA + 1"},
    {16, true, "same group, idxB: where the next start is not 1, the next idxB must be idxB + 5"},
    {17, true, "end of a group: where the next start is not 0, len must be 1"},
    {0, false, NULL},
};

static void rule_sentence(FILE *out, const struct given *given, struct answer answer, const struct rule *rule)
{
    bool last = answer.place + (size_t)1 == rows_of(given, answer.part);
    while (rule->words && rule->number != answer.rule)
        rule++;
    fprintf(out, "%s %u breaks rule %u, %s%s", layouts[answer.part].row, answer.place, answer.rule,
            rule->words ? rule->words : "unknown", last && rule->next ? "; the last row is its own next row" : "");
    lookup_sentence(out, given, answer);
    fputc('\n', out);
}

static void word_sentence(FILE *out, const struct given *given, struct answer answer)
{
    const struct layout *layout = &layouts[answer.part];
    char name[32];
    column_name(answer.part, answer.place, name);
    fprintf(out, "word %u of the %s, %s of %s %u, is %u: a word must be below p = " P, answer.place, layout->part, name, layout->row,
            answer.place / layout->words, word_in(given, answer.part, answer.place));
    if (answer.part == MEMORY)
        cell_sentence(out, given, answer.place);
    fputc('\n', out);
}

static void size_sentence(FILE *out, const struct given *given, uint32_t part)
{
    if (part == MEMORY && given->split)
        lengths_sentence(out, given);
    else
        fprintf(out, "the %s has %zu bytes, and must be %s\n", layouts[part].part, given->part[part].len, layouts[part].lengths);
}

static void start_sentence(FILE *out, const struct given *given)
{
    fprintf(out, "execution row 0 has pc %u and fp %u, and the start handed in is pc %ju and fp %ju (--pc, --fp)\n",
            word_of(given->part[EXEC], 0), word_of(given->part[EXEC], 1), (uintmax_t)given->pc, (uintmax_t)given->fp);
}

static void bus_sentence(FILE *out, struct answer answer)
{
    if (answer.part == EXEC)
        fprintf(out, "execution row %u pushes a tuple that is not pulled as often as it is pushed\n", answer.place);
    else
        fprintf(out, "extension row %u pulls a tuple that is not pushed as often as it is pulled\n", answer.place);
}

void judge_sentence(FILE *out, const struct given *given, struct answer answer)
{
    fprintf(out, "%s: ", uisnabar_name(answer.verdict));
    switch (answer.verdict) {
    case UISNABAR_ACCEPTED: fputs("the tables satisfy the constraints of " DRAFT "\n", out); break;
    case UISNABAR_SIZE: size_sentence(out, given, answer.part); break;
    case UISNABAR_WORD: word_sentence(out, given, answer); break;
    case UISNABAR_INSTRUCTION:
        fprintf(out, "instruction %u of the program is malformed: docs/VERDICTS.md, \"Well-formed instructions\", says what it may be\n",
                answer.place);
        break;
    case UISNABAR_START: start_sentence(out, given); break;
    case UISNABAR_EXEC: rule_sentence(out, given, answer, execution); break;
    case UISNABAR_EXTENSION: rule_sentence(out, given, answer, extension); break;
    case UISNABAR_BUS: bus_sentence(out, answer); break;
    default: fputs("no answer of the judge\n", out);
    }
}

void count_sentence(FILE *out, const struct given *given, struct answer answer, const uint8_t grid[UISNABAR_GRID_BYTES])
{
    if (answer.verdict == UISNABAR_ACCEPTED)
        fprintf(out, "ACCEPTED: %zu rows were counted, and the grid's total is now %ju\n", rows_of(given, EXEC), (uintmax_t)total_of(grid));
    else if (answer.verdict == UISNABAR_GRID)
        fprintf(out, "GRID: %zu rows more would bring the grid's total above %ju: nothing was counted; begin a new grid\n",
                rows_of(given, EXEC), (uintmax_t)TOTAL_MOST);
    else
        judge_sentence(out, given, answer);
}

void report_sentence(FILE *out, const uint8_t grid[UISNABAR_GRID_BYTES])
{
    struct reach reach = reach_of(grid);
    uint64_t total = total_of(grid);
    fprintf(out, "%u of the %u possible forms were reached, in ", reach.reached, reach.possible);
    if (total > TOTAL_MOST)
        fprintf(out, "more than %ju rows, which no count gives", (uintmax_t)TOTAL_MOST);
    else
        fprintf(out, "%ju rows", (uintmax_t)total);
    if (reach.strange > 0)
        fprintf(out, "; %u counters of other forms are not 0, which no count gives", reach.strange);
    fputc('\n', out);
}

/* LIST is for whoever lends a shorter buffer: the command's own is always long enough */
void ranges_sentence(FILE *out, const struct given *given, struct answer answer, size_t found)
{
    if (answer.verdict == UISNABAR_ACCEPTED)
        fprintf(out, "ACCEPTED: range checks found in %zu rows: %zu\n", rows_of(given, EXEC), found);
    else if (answer.verdict == UISNABAR_LIST)
        fprintf(out, "LIST: the buffer for the finds is too short: there are %u, which need %zu bytes\n", answer.place,
                UISNABAR_FIND_BYTES * (size_t)answer.place);
    else
        judge_sentence(out, given, answer);
}

/* what each line of a label must be */
static const char *const label_lines[] = {
    "v=1 or v=2 (versions 1 and 2 are known)",
    "seed= and 16 lower-case hex digits",
    "m= and a number from 10 to 29",
    "n= and a number from 1 to 124, without leading zeros",
};
enum { LABEL_LINES = sizeof label_lines / sizeof label_lines[0] };

/* of the line in which a text leaves every valid label: each line before it is whole */
static void line_sentence(FILE *out, struct bytes text, size_t place)
{
    size_t line = 0;
    for (size_t at = 0; at < place; at++)
        line += text.at[at] == '\n';
    if (line < LABEL_LINES)
        fprintf(out, "line %zu must be %s, and end with LF\n", line + 1, label_lines[line]);
    else
        fprintf(out, "nothing may follow line %zu\n", line);
}

void label_sentence(FILE *out, struct bytes text, struct answer answer, const uint8_t *recipe)
{
    fprintf(out, "%s: ", uisnabar_name(answer.verdict));
    if (answer.verdict == UISNABAR_ACCEPTED) {
        fprintf(out, "a label of version %u, seed %08x%08x, m %u and n %u\n", word_at(recipe + 16), word_at(recipe + 4), word_at(recipe),
                word_at(recipe + 8), word_at(recipe + 12));
        return;
    }
    if (answer.place < text.len)
        fprintf(out, "the first %u bytes begin a valid label, and the next, 0x%02x, fits none: ", answer.place, text.at[answer.place]);
    else
        fprintf(out, "the text ends after %u bytes, where every valid label that begins so goes on: ", answer.place);
    line_sentence(out, text, answer.place);
}
