#include <inttypes.h>
#include <stdio.h>
#include <string.h>

#include "listings.h"

const uint32_t edge_words[EDGE_WORDS] = { 0, 1, 9, 10, 99, P - 1 };
const uint32_t edge_lengths[EDGE_LENGTHS] = { 1, 9, 10, MOST_N - 1, MOST_N };
const size_t written_lengths[WRITTEN_LENGTHS] = { 0, 4, 7, 9, 16, 24 };

static const char *const field_names[FIELDS] = { "op", "a", "b", "c", "be", "n" };

static const char *const stage_names[STAGES] = {
    [IN_KEY] = "key", [IN_NAME] = "name", [AT_FIRST_DIGIT] = "first digit",
    [AFTER_ZERO] = "after 0", [AFTER_DIGIT] = "after a digit",
    [ABOVE_MOST] = "digit above the most",
};

static const char *const case_names[LIST_CASES] = {
    [LIST_EXACT] = "listed in exact room",
    [LIST_MORE] = "in more room",
    [LIST_ONE_SHORT] = "room one byte short",
    [LIST_NO_ROOM] = "no room",
    [LIST_ONE_LINE] = "one line",
    [LIST_LONGEST] = "longest lines",
    [LIST_EMPTY] = "program of 0 bytes",
    [LIST_LENGTH] = "program's length",
    [LIST_WORD_FIRST] = "WORD at word 0",
    [LIST_WORD_LAST] = "WORD at the last word",
    [LIST_WORD_BEHIND] = "WORD behind an INSTRUCTION",
    [LIST_SIZE_FIRST] = "SIZE before WORD, INSTRUCTION and SHORT",
    [LIST_MALFORMED_LAST] = "INSTRUCTION at the last",
    [LIST_MALFORMED_FIRST] = "INSTRUCTION before SHORT",
    [READ_EXACT] = "read in exact room",
    [READ_MORE] = "in more room",
    [READ_ONE_SHORT] = "room one byte short",
    [READ_NO_ROOM] = "no room",
    [READ_EMPTY] = "empty text",
    [READ_LISTING_FIRST] = "LISTING before SHORT",
    [READ_STILL] = "damaged and still a listing",
};

/* The op whose name and a space the line begins with; LIST_OPS if none yet. */
static uint32_t op_begun(const uint8_t *line, size_t len)
{
    for (uint32_t op = 0; op < LIST_OPS; op++) {
        size_t name = strlen(list_op_names[op]);
        if (len > 3 + name && memcmp(line + 3, list_op_names[op], name) == 0
            && line[3 + name] == ' ')
            return op;
    }
    return LIST_OPS;
}

/* Within a field, of which len bytes were taken. */
static uint32_t stage_of(uint32_t field, const uint8_t *from, size_t len, int next)
{
    const uint8_t *sign = len == 0 ? NULL : memchr(from, '=', len);
    if (sign == NULL)
        return IN_KEY;
    if (field <= FIELD_C) /* a name comes before the number */
        sign = memchr(from, ':', len);
    if (sign == NULL)
        return IN_NAME;
    size_t digits = (size_t)(from + len - sign) - 1;
    if (digits == 0)
        return AT_FIRST_DIGIT;
    if (field <= FIELD_C && sign[1] == '0')
        return AFTER_ZERO;
    return field != FIELD_BE && next >= '0' && next <= '9' ? ABOVE_MOST : AFTER_DIGIT;
}

void count_stop(listing_tally *t, const uint8_t *text, size_t len, size_t place)
{
    size_t begin = place, from;
    uint32_t field = FIELD_OP;
    if (place > len)
        return; /* a difference's business */
    while (begin > 0 && text[begin - 1] != '\n')
        begin--;
    from = begin;
    for (size_t i = begin; i < place; i++)
        if (text[i] == ' ') {
            field++;
            from = i + 1;
        }
    uint32_t op = op_begun(text + begin, place - begin);
    if (field < FIELDS && (op == LIST_OPS) == (field == FIELD_OP))
        t->stops[op][field][stage_of(field, text + from, place - from,
                                     place == len ? -1 : text[place])][place == len]++;
}

/* Whether a reader can stop there. */
static bool can_stop(uint32_t op, uint32_t field, uint32_t stage, uint32_t end)
{
    if ((op == LIST_OPS) != (field == FIELD_OP) || (field > FIELD_C && op < L_XADD))
        return false;
    if (stage == IN_KEY)
        return true;
    if (stage == IN_NAME)
        return field <= FIELD_C;
    if (field == FIELD_OP || (stage == ABOVE_MOST && (end == AT_END || field == FIELD_BE)))
        return false;
    return stage != AFTER_ZERO || field <= FIELD_C;
}

static uint32_t missing; /* so far */

static void print_stop(const uint64_t counts[ENDS], uint32_t op, uint32_t field, uint32_t stage)
{
    for (uint32_t end = 0; end < ENDS; end++) {
        bool possible = can_stop(op, field, stage, end);
        if ((counts[end] != 0) == possible)
            continue;
        missing++;
        printf("%s: LISTING in %s, %s, %s, %s\n",
               possible ? "not reached" : "reached and cannot be",
               op == LIST_OPS ? "no op yet" : list_op_names[op], field_names[field],
               stage_names[stage], end == AT_END ? "at the end" : "at a byte");
    }
}

static void print_stops(const listing_tally *t, uint32_t op)
{
    printf("LISTING in %s:", op == LIST_OPS ? "no op yet" : list_op_names[op]);
    for (uint32_t field = 0; field < FIELDS; field++) {
        uint64_t sum = 0;
        for (uint32_t i = 0; i < STAGES * ENDS; i++)
            sum += t->stops[op][field][i / ENDS][i % ENDS];
        if (sum != 0)
            printf(" %s:%" PRIu64, field_names[field], sum);
    }
    printf("\n");
    for (uint32_t i = 0; i < FIELDS * STAGES; i++)
        print_stop(t->stops[op][i / STAGES][i % STAGES], op, i / STAGES, i % STAGES);
}

static void print_shapes(const char *title, const uint64_t lines[SHAPES])
{
    uint32_t reached = 0, wrong = 0;
    for (uint32_t i = 0; i < SHAPES; i++) {
        reached += possible_shape(i) && lines[i] != 0;
        wrong += !possible_shape(i) && lines[i] != 0;
    }
    printf("lines %s: %" PRIu32 " of the %d possible, %" PRIu32 " of the other %d\n", title,
           reached, POSSIBLE_SHAPES, wrong, SHAPES - POSSIBLE_SHAPES);
    missing += POSSIBLE_SHAPES - reached + wrong;
}

/* Each mode of each operand that no line of the op has; of an extension each is
 * right in A and C, and in B beside another A. */
static void print_wrong(const listing_tally *t, uint32_t op)
{
    for (uint32_t i = 0; i < 3 * LIST_MODES; i++) {
        uint32_t operand = i / LIST_MODES, mode = i % LIST_MODES;
        listed l = { .op = op, .modes = { L_CELL, L_CELL, L_CELL } };
        if (op == L_DEREF)
            l.modes[OP_B] = L_IMM;
        l.modes[operand] = mode;
        bool possible = wrong_operand(&l) == operand || (op >= L_XADD && operand == OP_B);
        if ((t->wrong[op][operand][mode] != 0) == possible)
            continue;
        missing++;
        printf("%s: %s refused for %c=%s\n", possible ? "not reached" : "reached and cannot be",
               list_op_names[op], "abc"[operand], list_mode_names[mode]);
    }
}

static void print_count(const char *before, uint64_t count)
{
    missing += count == 0;
    printf("%s:%" PRIu64 "%s", before, count, count == 0 ? " NOT REACHED" : "");
}

static void print_named(const char *title, const char *const *names, const uint64_t *counts,
                        uint32_t length)
{
    printf("%s:", title);
    for (uint32_t i = 0; i < length; i++) {
        printf("%s ", i == 0 ? "" : ",");
        print_count(names[i], counts[i]);
    }
    printf("\n");
}

static void print_numbered(const char *title, const uint32_t *numbers, const uint64_t *counts,
                           uint32_t length)
{
    char name[16];
    printf("%s:", title);
    for (uint32_t i = 0; i < length; i++) {
        snprintf(name, sizeof name, " %" PRIu32, numbers[i]);
        print_count(name, counts[i]);
    }
    printf("\n");
}

static void print_numbers(const listing_tally *t)
{
    static const uint32_t columns[] = { F_A, F_B, F_C, FP_C, FP_AB, W_MUL, W_JUMP, W_AUX, W_DATA };
    uint32_t lengths[WRITTEN_LENGTHS];
    for (uint32_t i = 0; i < WRITTEN_LENGTHS; i++)
        lengths[i] = (uint32_t)written_lengths[i];
    print_numbered("words read as a", edge_words, t->words[OP_A], EDGE_WORDS);
    print_numbered("words read as b", edge_words, t->words[OP_B], EDGE_WORDS);
    print_numbered("words read as c", edge_words, t->words[OP_C], EDGE_WORDS);
    print_numbered("n read", edge_lengths, t->lengths, EDGE_LENGTHS);
    print_numbered("malformed by word", columns, t->columns + F_A, FORM_WORDS - F_A);
    print_numbered("lister's written of bytes", lengths, t->written[0], WRITTEN_LENGTHS);
    print_numbered("reader's written of bytes", lengths, t->written[1], WRITTEN_LENGTHS);
}

bool listing_report(const listing_tally *t)
{
    missing = 0;
    print_shapes("listed", t->listed);
    print_shapes("read", t->read);
    for (uint32_t op = 0; op <= LIST_OPS; op++)
        print_stops(t, op);
    for (uint32_t op = 0; op < LIST_OPS; op++)
        print_wrong(t, op);
    print_numbers(t);
    print_named("damaged listings", damage_names, t->damages, DAMAGES);
    print_named("listings", case_names, t->cases, LIST_CASES);
    printf("listings: %" PRIu32 " not as it should be\n", missing);
    return missing == 0;
}
