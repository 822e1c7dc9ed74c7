/* The second's machine of draft 0.5.0 beside both tablers on the translation:
 * the same states, or stuck in the same row by the same rule. */
#include <inttypes.h>
#include <string.h>

#include "olds.h"
#include "tries.h"

enum { ROWS = 256, STYLES = 3 };

static world run; /* its program is the library's translation */
static uint8_t bytes[OLD_UNIT * MAX_OLDS];
static uint32_t turn;

bool old_runs_open(void)
{
    return world_open(&run);
}

/* Of a jump that can step. */
static bool is_taken(const uint32_t *words, uint32_t fp)
{
    if (words[F_A] == 1)
        return words[OP_A] == 1;
    return get(&run, MEMORY, word_add(fp, words[OP_A]), 0) == 1;
}

static void tally_step(old_tally *t, const olds *o, second_state at,
                       uint32_t rule)
{
    if (rule == 1) {
        t->cases[LEFT_PROGRAM]++;
        return;
    }
    const uint32_t *words = o->words[at.pc];
    uint32_t outcome = rule != 0 ? rule : STEPPED;
    if (rule == 0 && words[O_JUMP] == 1 && !is_taken(words, at.fp))
        outcome = UNTAKEN;
    t->steps[old_form_of(words)][outcome]++;
}

/* The tabler's answer as the old machine has it, and the states of all rows. */
static second_answer old_run(old_tally *t, const olds *o, size_t len,
                             second_state states[ROWS])
{
    second_state now = { (uint32_t)run.pc, (uint32_t)run.fp };
    for (uint32_t row = 0; row < ROWS; row++) {
        states[row] = now;
        uint32_t rule = second_old_step(bytes, len, run.bytes[MEMORY],
                                        run.len[MEMORY], &now);
        tally_step(t, o, states[row], rule);
        if (rule != 0)
            return (second_answer){ .verdict = STUCK, .place = row, .rule = rule };
    }
    if (memcmp(&now, &states[ROWS - 1], sizeof now) == 0)
        return (second_answer){ .verdict = ACCEPTED };
    return (second_answer){ .verdict = OPEN, .place = ROWS - 1 };
}

/* Each row of the library's table has the old machine's state. */
static bool same_states(const differ *d, const second_state states[ROWS])
{
    for (uint32_t row = 0; row < ROWS; row++) {
        const uint8_t *at = d->slots[EXECUTION].lent
                          + unit_of(EXECUTION) * row;
        if (load_word(at + 4 * PC) != states[row].pc
            || load_word(at + 4 * FP) != states[row].fp)
            return false;
    }
    return true;
}

static void compare_runs(differ *d, const olds *o, size_t len)
{
    second_state states[ROWS];
    second_answer old = old_run(&d->reached.olds, o, len, states);
    attempt t = attempt_on(d, TABLER, &run);
    t.lent[EXECUTION].bytes = t.lent[EXTENSIONS].bytes = NULL;
    t.lent[PARTS].len = ANSWER_BYTES;
    t.extra = true;
    second_answer now = compare(d, &t);
    d->reached.olds.cases[RUN_STAYED] += old.verdict == ACCEPTED;
    d->reached.olds.cases[RUN_OPEN] += old.verdict == OPEN;
    note(d, "; 0.5.0 says %" PRIu32 " row %" PRIu32 " rule %" PRIu32
         ", 0.6.0 says %" PRIu32 " row %" PRIu32 " rule %" PRIu32, old.verdict,
         old.place, old.rule, now.verdict, now.place, now.rule);
    if (memcmp(&old, &now, sizeof old) != 0)
        differs(d, "the translation's run ends in another way");
    else if (old.verdict == ACCEPTED && !same_states(d, states))
        differs(d, "the translation's run has other states");
}

static void translate_and_run(differ *d, const olds *o)
{
    attempt t = { .function = TRANSLATE };
    size_t len = store_olds(o, bytes);
    run.len[PROGRAM] = unit_of(PROGRAM) * o->count;
    t.lent[0] = (buffer){ bytes, len, false };
    t.lent[1].len = run.len[PROGRAM];
    t.lent[2].len = ANSWER_BYTES;
    if (translate_olds(d, o, &t).verdict != ACCEPTED) {
        differs(d, "a translatable program is refused");
        return;
    }
    memcpy(run.bytes[PROGRAM], d->slots[1].lent, run.len[PROGRAM]);
    compare_runs(d, o, len);
}

/* An operand of one instruction: a cell outside the memory, another cell, or
 * any word. */
static void spoil_operand(differ *d, olds *o, uint32_t at, uint32_t way)
{
    uint32_t cells = count_of(&run, MEMORY), style = way % STYLES;
    uint32_t word = some_word(&d->random, cells), k = way / STYLES;
    if (style == 0)
        word = word_sub(cells + below(&d->random, 4), o->frames[at]);
    if (style == 1)
        word = word_sub(below(&d->random, cells), o->frames[at]);
    o->words[at][k] = word;
    note(d, "; instruction %" PRIu32 " operand %" PRIu32 " is %" PRIu32, at, k,
         word);
}

/* A cell, the start, or the form of an instruction. */
static void spoil_other(differ *d, olds *o)
{
    uint32_t cells = count_of(&run, MEMORY), at = below(&d->random, o->count);
    uint32_t index = below(&d->random, cells), form = below(&d->random, OLD_FORMS);
    switch (below(&d->random, 3)) {
    case 0:
        put(&run, MEMORY, index, 0, some_word(&d->random, cells));
        note(d, "; another cell %" PRIu32, index);
        break;
    case 1:
        run.pc = below(&d->random, o->count + 2);
        run.fp = once_in(&d->random, 2) ? run.fp : some_word(&d->random, cells);
        note(d, "; start %" PRIu64 " %" PRIu64, run.pc, run.fp);
        break;
    default:
        set_old_form(o->words[at], form);
        note(d, "; instruction %" PRIu32 " of form %" PRIu32, at, form);
    }
}

/* A legal run, then each way to spoil an operand of one instruction, whose form
 * is the next in turn, and at last something else. */
void try_old_runs(differ *d)
{
    static olds right, other;
    note_back(d, 0);
    uint32_t at = build_olds(d, &run, &right, turn++ % OLD_FORMS);
    size_t mark = d->what_len;
    translate_and_run(d, &right);
    for (uint32_t way = 0; way < 3 * STYLES; way++) {
        note_back(d, mark);
        other = right;
        spoil_operand(d, &other, at, way);
        translate_and_run(d, &other);
    }
    note_back(d, mark);
    spoil_other(d, &right);
    translate_and_run(d, &right);
}
