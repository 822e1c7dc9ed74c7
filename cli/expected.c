/* What is expected where a text leaves every valid listing. The library names the place; here is only what a person may
 * type there, by the grammar of docs/LISTING.md, which has the same words (tests/cli_listings.py). */
#include <string.h>

#include "cli.h"

enum { WORD_MOST = 2130706432, N_MOST = 1 << 20, NAMES = 7 };

/* a line up to the place, and how much of it is walked: every byte of it is one that a valid line may have */
struct walk {
    FILE *out;
    const char *line;
    size_t len, at;
};

/* each of these walks over what its name says, or says what is expected where the line ends in it, and gives -1 */

/* one of some texts, by number: those that begin as the line does are said, and where that was, unless it is here */
static int one_of(struct walk *walk, const char *const *texts)
{
    size_t left = walk->len - walk->at;
    const char *typed = walk->line + walk->at, *fit[NAMES];
    int fits = 0;
    for (int i = 0; texts[i]; i++) {
        size_t length = strlen(texts[i]);
        if (strncmp(typed, texts[i], left < length ? left : length) != 0)
            continue;
        if (length <= left)
            return walk->at += length, i;
        fit[fits++] = texts[i];
    }
    for (int i = 0; i < fits; i++)
        fprintf(walk->out, "%s%s", i == 0 ? "" : i + 1 < fits ? ", " : " or ", fit[i]);
    if (left > 0)
        fprintf(walk->out, ", begun at column %zu,", walk->at + 1);
    return -1;
}

/* what stands before a field: a space, and its name */
static int field(struct walk *walk, const char *name)
{
    const char *const names[] = {name, NULL};
    if (walk->at == walk->len)
        return fprintf(walk->out, "a space before %s", name), -1;
    walk->at++;
    return one_of(walk, names);
}

/* what ends a number, and whether another digit may stand before it */
static int after_digits(struct walk *walk, uint64_t number, uint64_t most, const char *next)
{
    if (next)
        fprintf(walk->out, "a space before %s", next);
    else
        fputs("LF", walk->out);
    if (number == 0)
        fputs(", as nothing follows a leading 0,", walk->out);
    else if (10 * number > most)
        fprintf(walk->out, ", as with one digit more the number would pass %ju,", (uintmax_t)most);
    else
        fprintf(walk->out, ", or a digit with which the number does not pass %ju,", (uintmax_t)most);
    return -1;
}

/* a number up to the field that follows it, or up to LF where none does */
static int number(struct walk *walk, const char *what, uint64_t most, const char *next)
{
    uint64_t found = 0;
    size_t first = walk->at;
    while (walk->at < walk->len && walk->line[walk->at] >= '0' && walk->line[walk->at] <= '9')
        found = 10 * found + (uint64_t)(walk->line[walk->at++] - '0');
    if (walk->at < walk->len)
        return 0;
    if (walk->at == first)
        return fputs(what, walk->out), -1;
    return after_digits(walk, found, most, next);
}

/* what may stand before an operand's word */
static const char *const imm[] = {"imm:", NULL}, *const cell[] = {"cell:", NULL}, *const fp[] = {"fp:", NULL};
static const char *const imm_cell[] = {"imm:", "cell:", NULL}, *const cell_fp[] = {"cell:", "fp:", NULL};
static const char *const any[] = {"imm:", "cell:", "fp:", NULL};
enum { FP = 2 }; /* the number of fp: in any */

static const char *const names[] = {"add", "mul", "deref", "jump", "xadd", "xmul", "xpeq", NULL};
static const struct operation {
    const char *const *a, *const *b, *const *c; /* an extension's b where a is not fp: */
    bool extension;
} operations[NAMES] = {
    {imm_cell, imm_cell, any, false}, {imm_cell, imm_cell, any, false}, {cell, imm, any, false}, {imm_cell, imm_cell, cell_fp, false},
    {any, imm_cell, any, true},       {any, imm_cell, any, true},       {any, imm_cell, any, true},
};

/* one operand, its field's name too: which of the three it is */
static int operand(struct walk *walk, const char *name, const char *const *modes, const char *next)
{
    int mode = field(walk, name) < 0 ? -1 : one_of(walk, modes);
    return mode < 0 || number(walk, "a decimal word below 2130706433", WORD_MOST, next) < 0 ? -1 : mode;
}

static void line_expected(struct walk *walk)
{
    static const char *const op[] = {"op=", NULL}, *const bits[] = {"0", "1", NULL};
    int name = one_of(walk, op) < 0 ? -1 : one_of(walk, names);
    if (name < 0)
        return;
    const struct operation *is = &operations[name];
    int a = operand(walk, "a=", is->a, "b=");
    const char *const *b = is->extension && a == FP ? fp : is->b; /* b is fp: exactly where a is */
    if (a < 0 || operand(walk, "b=", b, "c=") < 0 || operand(walk, "c=", is->c, is->extension ? "be=" : NULL) < 0)
        return;
    if (field(walk, "be=") >= 0 && one_of(walk, bits) >= 0 && field(walk, "n=") >= 0)
        number(walk, "a decimal number from 1 to 1048576", N_MOST, NULL);
}

static void found_sentence(FILE *out, struct bytes text, size_t place)
{
    int byte = place < text.len ? text.at[place] : -1;
    if (byte < 0)
        fputs(text.len == 0 ? ", and the text is empty\n" : ", and the text ends\n", out);
    else if (byte == '\r')
        fputs(", not CR: a line ends with LF alone\n", out);
    else if (byte == '\n' || byte == '\t' || byte == ' ')
        fprintf(out, ", not %s\n", byte == '\n' ? "LF" : byte == '\t' ? "a tab" : "a space");
    else
        fprintf(out, byte > ' ' && byte < 0x7f ? ", not %c\n" : ", not 0x%02x\n", (unsigned)byte);
}

void expected_sentence(FILE *out, struct bytes text, size_t place)
{
    size_t lines = 0, first = 0;
    for (size_t at = 0; at < place; at++)
        if (text.at[at] == '\n')
            lines++, first = at + 1;
    fprintf(out, "line %zu, column %zu: ", lines + 1, place - first + 1);
    if (lines == MOST) {
        fprintf(out, "the text's end is expected here, as a program has at most %d instructions\n", MOST);
        return;
    }
    line_expected(&(struct walk){.out = out, .line = place == 0 ? "" : (const char *)text.at + first, .len = place - first});
    fputs(" is expected here", out);
    found_sentence(out, text, place);
}
