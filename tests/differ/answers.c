/* Each function with answer buffers of other lengths, where all else would be
 * accepted; among them the 16 bytes of the four numbers that there were once. */
#include "listings.h"
#include "olds.h"
#include "splits.h"
#include "tries.h"

enum { TEXT = 37, ROWS = 256 };

static const second_recipe recipe = { 1, 10, 1, 2 };
static uint8_t parts[PARTS][4 * EXT_WORDS * ROWS];
static uint8_t text[TEXT], fresh[SECOND_GRID_BYTES], old[OLD_UNIT];

/* Both judges, count, finder of ranges and tabler, on the recipe's tables. */
static attempt on_tables(differ *d, enum function f)
{
    world w = { .pc = 0 };
    for (int i = 0; i < PARTS; i++) {
        w.bytes[i] = parts[i];
        w.len[i] = unit_of(i) * ROWS;
    }
    w.len[PROGRAM] = unit_of(PROGRAM) * (recipe.n + 1);
    w.len[MEMORY] = unit_of(MEMORY) << recipe.m;
    second_make(recipe, parts[PROGRAM], w.len[PROGRAM], parts[MEMORY],
                w.len[MEMORY]);
    second_tables(&w);
    if (f == SPLIT)
        return split_of(d, &w, unit_of(MEMORY), w.len[MEMORY] - unit_of(MEMORY));
    attempt t = attempt_on(d, f, &w);
    if (f == COUNT)
        t.lent[PARTS] = (buffer){ fresh, sizeof fresh, false };
    if (f == RANGES)
        t.lent[PARTS + 1].len = FOUND_BYTES;
    return t;
}

/* Label reader and writer, and maker. */
static attempt on_recipe(enum function f)
{
    attempt t = { .function = f, .recipe = recipe };
    uint32_t length;
    second_write_label(recipe, text, sizeof text, &length);
    if (f == MAKER) {
        t.lent[0].len = unit_of(PROGRAM) * (recipe.n + 1);
        t.lent[1].len = unit_of(MEMORY) << recipe.m;
        return t;
    }
    t.lent[0] = (buffer){ f == LABEL_READER ? text : NULL, length, false };
    t.lent[2].len = f == LABEL_READER ? RECIPE_BYTES : 0;
    return t;
}

static attempt on_report(void)
{
    attempt t = { .function = REPORT };
    t.lent[0] = (buffer){ fresh, sizeof fresh, false };
    t.lent[2].len = WRITTEN_BYTES;
    return t;
}

static attempt on_old(void)
{
    attempt t = { .function = TRANSLATE };
    olds o = { .count = 1 };
    set_old_form(o.words[0], OLD_ADD);
    t.lent[0] = (buffer){ old, store_olds(&o, old), false };
    t.lent[1].len = unit_of(PROGRAM);
    return t;
}

/* One instruction to the lister, or its line to the reader. */
static attempt on_listing(enum function f)
{
    static uint8_t program[4 * FORM_WORDS], its_line[LONGEST_LINE + 1];
    attempt t = { .function = f };
    listed one = { .op = L_XPEQ, .n = 1 };
    store_listed(&one, program);
    size_t length = print_line(&one, its_line, NULL);
    t.lent[0] = (buffer){ program, sizeof program, false };
    t.lent[1].len = length;
    if (f == LIST_READER) {
        t.lent[0] = (buffer){ its_line, length, false };
        t.lent[1].len = sizeof program;
    }
    t.lent[2].len = WRITTEN_BYTES;
    return t;
}

static attempt on_stream(enum function f)
{
    attempt t = { .function = f, .state = recipe.seed, .number = 3 };
    t.lent[0].len = NEXT_BYTES;
    return t;
}

static attempt accepted(differ *d, enum function f)
{
    switch (f) {
    case JUDGE:
    case COUNT:
    case RANGES:
    case SPLIT:
    case TABLER:
        return on_tables(d, f);
    case REPORT:
        return on_report();
    case TRANSLATE:
        return on_old();
    case LISTER:
    case LIST_READER:
        return on_listing(f);
    case STREAM_JUMP:
    case STREAM_HOST:
        return on_stream(f);
    default:
        return on_recipe(f);
    }
}

static uint32_t try_length(differ *d, enum function f, size_t len)
{
    attempt t = accepted(d, f);
    t.extra = true;
    t.lent[answer_slot(f)].len = len;
    note_back(d, 0);
    note(d, "an answer of %zu bytes", len);
    return compare(d, &t).verdict;
}

void try_answers(differ *d)
{
    for (int f = 0; f < FUNCTIONS; f++) {
        if (try_length(d, f, ANSWER_BYTES) != ACCEPTED)
            differs(d, "with an answer of the right length it is refused");
        for (int i = 0; i < ANSWER_LENGTHS; i++)
            if (try_length(d, f, answer_lengths[i]) != ANSWER)
                differs(d, "with an answer of another length it is not ANSWER");
    }
}
