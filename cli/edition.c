/* What is said of a translation. The library refuses an instruction: here is only what of its words a person may look
 * at, by document 02's list. docs/VERDICTS.md has the same words (tests/cli_translate.py). */
#include "cli.h"

/* an instruction's words by their place, from the first flag on */
enum { FLAG_A = 3, FLAG_B, FLAG_C, ADD, MUL, DEREF, JUMP, IS_PRECOMPILE, PRECOMPILE_INDEX, AUX_1, AUX_2, WORDS };

static bool precompile(const uint32_t *word) { return word[IS_PRECOMPILE] != 0 || word[PRECOMPILE_INDEX] != 0; }

static bool opcodes(const uint32_t *word) { return (uint64_t)word[ADD] + word[MUL] + word[DEREF] + word[JUMP] != 1; }

static bool flags(const uint32_t *word)
{
    bool outside = false;
    for (int place = FLAG_A; place <= JUMP; place++)
        outside = outside || word[place] > 1;
    return outside;
}

static bool deref_flags(const uint32_t *word)
{
    return word[DEREF] == 1 && (word[FLAG_A] != 0 || word[FLAG_C] != 1 || (word[AUX_1] == 0 && word[FLAG_B] != 1));
}

static bool deref_aux(const uint32_t *word) { return word[DEREF] == 1 && word[AUX_1] > 1; }

static bool other_aux(const uint32_t *word) { return word[DEREF] != 1 && word[AUX_1] != 0; }

static bool second_aux(const uint32_t *word) { return word[AUX_2] != 0; }

static const struct {
    bool (*broken)(const uint32_t *word);
    const char *words;
} reasons[] = {
    {precompile, "IS_PRECOMPILE and PRECOMPILE_INDEX must be 0"},
    {opcodes, "one of ADD, MUL, DEREF and JUMP must be 1, and the others 0"},
    {flags, "each flag, and each of ADD, MUL, DEREF and JUMP, must be 0 or 1"},
    {deref_flags, "where DEREF is 1, flag A must be 0 and flag C 1, and flag B 1 where AUX_1 is 0"},
    {deref_aux, "where DEREF is 1, AUX_1 must be 0 or 1"},
    {other_aux, "where DEREF is not 1, AUX_1 must be 0"},
    {second_aux, "AUX_2 must be 0"},
};
enum { REASONS = sizeof reasons / sizeof reasons[0] };

static void reasons_sentence(FILE *out, const uint32_t *word)
{
    const char *between = ": ";
    for (int reason = 0; reason < REASONS; reason++)
        if (reasons[reason].broken(word)) {
            fprintf(out, "%s%s", between, reasons[reason].words);
            between = "; ";
        }
    fputc('\n', out);
}

static void edition_sentence(FILE *out, const struct given *given, uint32_t place)
{
    uint32_t word[WORDS];
    for (size_t at = 0; at < WORDS; at++)
        word[at] = word_of(given->part[OLD], (size_t)WORDS * place + at);
    fprintf(out, "EDITION: instruction %u of the %s, at byte %zu, is not translatable", place, layouts[OLD].part, (size_t)4 * WORDS * place);
    reasons_sentence(out, word);
    print_row(out, given, OLD, place);
}

void translate_sentence(FILE *out, const struct given *given, struct answer answer)
{
    if (answer.verdict == UISNABAR_ACCEPTED)
        fprintf(out, "ACCEPTED: the %s, %zu bytes, is now one of " DRAFT ", %zu bytes\n", layouts[OLD].part, given->part[OLD].len,
                4 * layouts[PROGRAM].words * rows_of(given, OLD));
    else if (answer.verdict == UISNABAR_EDITION)
        edition_sentence(out, given, answer.place);
    else { /* SIZE and WORD, of part 1 */
        answer.part = OLD;
        judge_sentence(out, given, answer);
    }
}
