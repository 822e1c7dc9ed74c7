/* What a call must give: the second's answer, and every buffer as it must end. */
#include "call.h"

/* What the second gives beside its answer. */
typedef struct {
    second_recipe read; /* of the label reader */
    uint32_t length;    /* of the label writer */
    uint64_t written;   /* of the report, the lister and its reader */
    uint64_t next;      /* of jump and host */
    uint64_t found;     /* of the finder of ranges */
} given;

/* Both judges, count and finder of ranges. */
static second_answer on_tables(const attempt *t, const slot *s, given *out)
{
    switch (t->function) {
    case JUDGE:
        return (t->sorted ? second_judge_sorted : second_judge)(
            s[0].mirror, s[0].len, s[1].mirror, s[1].len, t->pc, t->fp,
            s[2].mirror, s[2].len, s[3].mirror, s[3].len);
    case COUNT:
        return (t->sorted ? second_count_sorted : second_count)(
            s[0].mirror, s[0].len, s[1].mirror, s[1].len, t->pc, t->fp,
            s[2].mirror, s[2].len, s[3].mirror, s[3].len, s[4].mirror);
    case SPLIT:
        return (t->sorted ? second_judge_split_sorted : second_judge_split)(
            s[0].mirror, s[0].len, s[1].mirror, s[1].len, s[2].mirror, s[2].len,
            t->pc, t->fp, s[3].mirror, s[3].len, s[4].mirror, s[4].len);
    default:
        return (t->sorted ? second_ranges_sorted : second_ranges)(
            s[0].mirror, s[0].len, s[1].mirror, s[1].len, t->pc, t->fp,
            s[2].mirror, s[2].len, s[3].mirror, s[3].len, s[4].mirror, s[4].len,
            &out->found);
    }
}

/* The second's answer; its work is done in the mirrors. */
static second_answer second_answers(const attempt *t, const slot *s, given *out)
{
    switch (t->function) {
    case JUDGE:
    case COUNT:
    case RANGES:
    case SPLIT:
        return on_tables(t, s, out);
    case LABEL_READER:
        return second_read_label(s[0].mirror, s[0].len, &out->read);
    case REPORT:
        return second_report(s[0].mirror, s[1].mirror, s[1].len, &out->written);
    case TRANSLATE:
        return second_translate(s[0].mirror, s[0].len, s[1].mirror, s[1].len);
    case LISTER:
    case LIST_READER:
        return (t->function == LISTER ? second_list : second_read_listing)(
            s[0].mirror, s[0].len, s[1].mirror, s[1].len, &out->written);
    case STREAM_JUMP:
        out->next = second_jump(t->state, t->number);
        return (second_answer){ .verdict = ACCEPTED };
    case STREAM_HOST:
        return second_host(t->state, t->number, &out->next);
    case TABLER:
        return second_table(s[0].mirror, s[0].len, s[1].mirror, s[1].len,
                            t->pc, t->fp, s[2].mirror, s[2].len,
                            s[3].mirror, s[3].len);
    case MAKER:
        return second_make(t->recipe, s[0].mirror, s[0].len,
                           s[1].mirror, s[1].len);
    default:
        return second_write_label(t->recipe, s[0].mirror, s[0].len,
                                  &out->length);
    }
}

int answer_slot(enum function f)
{
    static const int slots[FUNCTIONS] = {
        [JUDGE] = 4, [LABEL_READER] = 1, [TABLER] = 4, [MAKER] = 2,
        [LABEL_WRITER] = 1, [COUNT] = 5, [REPORT] = 3, [TRANSLATE] = 2,
        [LISTER] = 3, [LIST_READER] = 3, [STREAM_JUMP] = 1, [STREAM_HOST] = 1,
        [RANGES] = 6, [SPLIT] = 5
    };
    return slots[f];
}

/* Whether each buffer of fixed length has it. */
static bool lengths_fit(enum function f, const slot *s)
{
    if (s[answer_slot(f)].len != ANSWER_BYTES)
        return false;
    switch (f) {
    case LABEL_READER:
        return s[2].len == RECIPE_BYTES;
    case COUNT:
        return s[4].len == SECOND_GRID_BYTES;
    case REPORT:
        return s[0].len == SECOND_GRID_BYTES && s[2].len == WRITTEN_BYTES;
    case LISTER:
    case LIST_READER:
        return s[2].len == WRITTEN_BYTES;
    case STREAM_JUMP:
    case STREAM_HOST:
        return s[0].len == NEXT_BYTES;
    case RANGES:
        return s[5].len == FOUND_BYTES;
    default:
        return true;
    }
}

/* The probe works all the same where the answer's length is another. */
static bool is_probe(enum function f)
{
    return f == TABLER || f == MAKER || f == LABEL_WRITER;
}

static void store_number(uint8_t *to, uint64_t number)
{
    store_word(to, (uint32_t)number);
    store_word(to + 4, (uint32_t)(number >> 32));
}

void store_answer(uint8_t to[ANSWER_BYTES], second_answer a)
{
    const uint32_t numbers[NUMBERS] = { a.verdict, a.part, a.place, a.rule,
                                        a.expected, a.found };
    for (int i = 0; i < NUMBERS; i++)
        store_word(to + 4 * i, numbers[i]);
}

/* The mirrors of what a call tells, where all lengths fit. */
static void tell(enum function f, const slot *s, second_answer a, given g)
{
    store_answer(s[answer_slot(f)].mirror, a);
    if (f == LABEL_READER && a.verdict == ACCEPTED) {
        store_number(s[2].mirror, g.read.seed);
        store_word(s[2].mirror + 8, g.read.m);
        store_word(s[2].mirror + 12, g.read.n);
        store_word(s[2].mirror + 16, g.read.version);
    }
    if (f == REPORT || f == LISTER || f == LIST_READER)
        store_number(s[2].mirror, g.written);
    if (f == STREAM_JUMP || f == STREAM_HOST)
        store_number(s[0].mirror, g.next);
    if (f == RANGES)
        store_number(s[5].mirror, g.found);
}

second_answer wanted(const attempt *t, const slot *s, uint32_t *returned)
{
    bool fit = lengths_fit(t->function, s);
    second_answer a = { .verdict = ANSWER };
    given g = { { 0, 0, 0, 0 }, 0, 0, 0, 0 };
    if (fit || is_probe(t->function))
        a = second_answers(t, s, &g);
    if (fit)
        tell(t->function, s, a, g);
    else
        a = (second_answer){ .verdict = ANSWER };
    *returned = t->function == LABEL_WRITER ? g.length : a.verdict;
    return a;
}
