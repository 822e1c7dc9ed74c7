#include <inttypes.h>
#include <stdio.h>

#include "olds.h"

static const char *const kind_names[] = { "add", "mul", "jump" };
static const char *const deref_names[] = { "deref of gamma", "deref of a cell",
                                           "deref of fp" };

static const char *const case_names[OLD_CASES] = {
    [ONE_INSTRUCTION] = "one instruction",
    [LEFT_PROGRAM] = "STUCK by rule 1",
    [RUN_STAYED] = "run that stays",
    [RUN_OPEN] = "run that is OPEN",
    [WORD_BEHIND_EDITION] = "WORD behind an EDITION",
    [WORD_FIRST] = "WORD at word 0",
    [WORD_LAST] = "WORD at the last word",
    [SIZE_FIRST] = "SIZE before WORD and EDITION",
    [EDITION_LAST] = "EDITION at the last instruction",
    [NO_OLD] = "old of 0 bytes",
    [NO_PROGRAM] = "program of 0 bytes",
    [NEITHER] = "both of 0 bytes",
    [OLD_LENGTH] = "old's length",
    [PROGRAM_LENGTH] = "program's length",
    [BOTH_LENGTHS] = "both lengths, one instruction less",
    [ANSWER_0] = "answer of 0 bytes",
    [ANSWER_16] = "answer of 16 bytes",
    [ANSWER_23] = "answer of 23 bytes",
    [ANSWER_25] = "answer of 25 bytes",
};

static void print_form(uint32_t form)
{
    if (form >= OLD_DEREF)
        printf("%s", deref_names[form - OLD_DEREF]);
    else
        printf("%s %" PRIu32 "%" PRIu32 "%" PRIu32, kind_names[form / 8],
               form / 4 % 2, form / 2 % 2, form % 2);
}

/* Whether a step of the form can come to it: a read is illegal only where there
 * is one, and an equation false only of another kind than JUMP. */
static bool possible(uint32_t form, uint32_t outcome)
{
    bool is_jump = form >= OLD_JUMP && form < OLD_DEREF;
    bool is_deref = form >= OLD_DEREF;
    switch (outcome) {
    case STEPPED:
        return true;
    case UNTAKEN:
    case 6:
        return is_jump;
    case 2:
        return is_deref || form / 4 % 2 == 0;
    case 3:
        return is_deref || form / 2 % 2 == 0;
    case 4:
        return is_deref ? form == DEREF_CELL : form % 2 == 0;
    default:
        return !is_jump;
    }
}

static uint32_t missing; /* so far */

/* What is wrong with a count, if anything. */
static void expect_count(uint64_t count, bool wanted, uint32_t form,
                         const char *what, uint32_t number)
{
    if ((count != 0) == wanted)
        return;
    missing++;
    printf("%s: ", wanted ? "not reached" : "reached and cannot be");
    print_form(form);
    printf(", %s %" PRIu32 "\n", what, number);
}

static void check_form(const old_tally *t, uint32_t form)
{
    uint32_t operand;
    bool dropped = drops(form, &operand);
    expect_count(t->translated[form], true, form, "translated", 1);
    expect_count(t->dropped[form], dropped, form, "dropped operand", operand);
    for (uint32_t k = 0; k < OUTCOMES; k++)
        expect_count(t->steps[form][k], possible(form, k), form, "outcome", k);
}

static void print_counts(const old_tally *t, uint32_t form)
{
    print_form(form);
    printf(": %" PRIu64 " translated, %" PRIu64 " with a dropped word; steps",
           t->translated[form], t->dropped[form]);
    for (uint32_t k = 0; k < OUTCOMES; k++)
        printf(" %" PRIu64, t->steps[form][k]);
    printf("\n");
}

static void print_named(const char *title, const char *const *names,
                        const uint64_t *counts, uint32_t length)
{
    printf("%s:", title);
    for (uint32_t i = 0; i < length; i++) {
        missing += counts[i] == 0;
        printf("%s %s:%" PRIu64 "%s", i == 0 ? "" : ",", names[i], counts[i],
               counts[i] == 0 ? " NOT REACHED" : "");
    }
    printf("\n");
}

bool old_report(const old_tally *t)
{
    missing = 0;
    printf("old instructions, by flags A, B, C; steps: taken, untaken, STUCK by "
           "rules 2 to 6\n");
    for (uint32_t form = 0; form < OLD_FORMS; form++) {
        print_counts(t, form);
        check_form(t, form);
    }
    print_named("EDITION", reason_names, t->reasons, REASONS);
    print_named("old programs", case_names, t->cases, OLD_CASES);
    printf("old programs: %" PRIu32 " not as it should be\n", missing);
    return missing == 0;
}
