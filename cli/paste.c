/* --paste: a text to send where two programs differ on a table. It names no file and no machine. */
#include "cli.h"

/* the instruction of an execution row, where its pc has one */
static void print_instruction(FILE *out, const struct given *given, size_t row)
{
    uint32_t pc = word_of(given->part[EXEC], row * layouts[EXEC].words);
    if (pc < rows_of(given, PROGRAM))
        print_row(out, given, PROGRAM, pc);
    else
        fprintf(out, "instruction %u: none, the program has %zu\n", pc, rows_of(given, PROGRAM));
}

/* the row that the answer is about, and in a table its successor; an execution row's instruction too */
static void print_rows(FILE *out, const struct given *given, uint32_t part, size_t row)
{
    print_row(out, given, part, row);
    if (part != EXEC && part != EXT)
        return;
    if (row + 1 < rows_of(given, part))
        print_row(out, given, part, row + 1);
    else
        fprintf(out, "%s %zu is the last, and its own successor\n", layouts[part].row, row);
    if (part == EXEC)
        print_instruction(out, given, row);
}

static void print_place(FILE *out, const struct given *given, struct answer answer)
{
    switch (answer.verdict) {
    case UISNABAR_WORD: print_rows(out, given, answer.part, answer.place / layouts[answer.part].words); break;
    case UISNABAR_START: print_rows(out, given, EXEC, 0); break;
    case UISNABAR_INSTRUCTION:
    case UISNABAR_EXEC:
    case UISNABAR_EXTENSION:
    case UISNABAR_BUS: print_rows(out, given, answer.part, answer.place); break;
    default: break; /* no row is named */
    }
}

static void print_sum(FILE *out, const char *what, size_t len, const sum digits)
{
    fprintf(out, "%s: %zu bytes, sha256 %s\n", what, len, digits);
}

/* a memory in two files has the line that it has as one, so that either can be compared with it, and then theirs */
static void print_sums(FILE *out, const struct given *given, const struct sums *sums)
{
    for (uint32_t part = PROGRAM; part < PARTS; part++) {
        print_sum(out, layouts[part].part, bytes_in(given, part), sums->part[part]);
        if (part == MEMORY && given->split) {
            print_sum(out, "public words", given->public.len, sums->public);
            print_sum(out, "rest of the memory", given->part[part].len, sums->rest);
        }
    }
}

void print_paste(FILE *out, const struct given *given, struct answer answer, const struct sums *sums)
{
    fprintf(out, "uisnabar %s, %s\n", UISNABAR_VERSION, DRAFT);
    print_sums(out, given, sums);
    fprintf(out, "start: pc=%ju, fp=%ju\n", (uintmax_t)given->pc, (uintmax_t)given->fp);
    fprintf(out, "answer: %s, part=%u, place=%u, rule=%u, expected=%u, found=%u\n", uisnabar_name(answer.verdict), answer.part,
            answer.place, answer.rule, answer.expected, answer.found);
    judge_sentence(out, given, answer);
    print_place(out, given, answer);
}
