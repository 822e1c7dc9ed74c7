/* What is tried of listings once: every cut, every byte at every place, every
 * mode, every room, and every flag and opcode of an instruction. */
#include "listings.h"

#include <inttypes.h>
#include <string.h>

#include "tries.h"

enum { SWEPT = POSSIBLE_SHAPES + 2 * LIST_OPS, BLOCK = 10, WELL_FORMED = 35 + 15 * 8 };

static list_text whole, other;

/* Each possible line, and of each op one of the smallest and of the largest
 * numbers. */
static void lines_to_sweep(source *random, listed l[SWEPT])
{
    uint32_t count = 0;
    for (uint32_t shape = 0; shape < SHAPES; shape++)
        if (possible_shape(shape)) {
            set_shape(&l[count], shape);
            some_numbers(random, &l[count++]);
        }
    for (uint32_t i = 0; i < 2 * LIST_OPS; i++) {
        uint32_t word = i % 2 == 0 ? 0 : P - 1;
        l[count++] = (listed){ i / 2, { L_CELL, i / 2 == L_DEREF ? L_IMM : L_CELL, L_CELL },
                               { word, word, word }, i / 2 >= L_XADD, i % 2 == 0 ? 1 : MOST_N };
    }
}

/* At a page, where calls are slow, a few bytes must do. */
static uint32_t bytes_to_try(differ *d, uint8_t bytes[256])
{
    static const char few[] = "09z\n";
    for (uint32_t i = 0; i < 256; i++)
        bytes[i] = (uint8_t)(d->paged && i < sizeof few - 1 ? (uint8_t)few[i] : i);
    return d->paged ? sizeof few - 1 : 256;
}

static void every_cut(differ *d, uint32_t lines)
{
    other = whole;
    for (size_t cut = 0; cut <= whole.len; cut++) {
        bool at_end = cut == 0 || whole.bytes[cut - 1] == '\n';
        other.len = cut;
        note_back(d, 0);
        note(d, "%" PRIu32 " lines, cut at %zu", lines, cut);
        second_answer a = read_text(d, &other, unit_of(PROGRAM) * lines);
        bool listing = at_end && cut != 0;
        expect_answer(d, a, listing ? ACCEPTED : LISTING, 0, listing ? 0 : cut);
    }
}

static void every_change(differ *d, const listed *l, uint32_t lines)
{
    uint8_t bytes[256];
    uint32_t count = bytes_to_try(d, bytes);
    print_lines(l, lines, &other);
    for (size_t at = 0; at < other.len; at++) {
        uint8_t was = other.bytes[at];
        for (uint32_t i = 0; i < count; i++) {
            other.bytes[at] = bytes[i];
            note_back(d, 0);
            note(d, "%" PRIu32 " lines, byte %zu is %u", lines, at, bytes[i]);
            read_text(d, &other, unit_of(PROGRAM) * lines);
        }
        other.bytes[at] = was;
    }
}

/* Both with every room from none to more than enough. */
static void every_room(differ *d, const listed *l, uint32_t lines)
{
    size_t program = unit_of(PROGRAM) * lines;
    print_lines(l, lines, &other);
    for (size_t room = 0; room <= other.len + 9; room++) {
        note_back(d, 0);
        note(d, "%" PRIu32 " lines listed in %zu bytes", lines, room);
        bool fits = room >= other.len;
        expect_answer(d, list_lines(d, l, lines, room), fits ? ACCEPTED : SHORT, 0,
                      fits ? 0 : other.len);
    }
    for (size_t room = 0; room <= program + unit_of(PROGRAM) + 1; room++) {
        note_back(d, 0);
        note(d, "%" PRIu32 " lines read in %zu bytes", lines, room);
        bool fits = room >= program;
        expect_answer(d, read_text(d, &other, room), fits ? ACCEPTED : SHORT, 0,
                      fits ? 0 : program);
    }
}

/* As the second of two lines.  The reader stops where the wrong mode begins. */
static void try_modes(differ *d, const listed l[2])
{
    size_t modes[3], first;
    uint32_t operand = wrong_operand(&l[1]);
    first = print_line(&l[0], other.bytes, NULL);
    other.len = first + print_line(&l[1], other.bytes + first, modes);
    note_back(d, 0);
    note_listing(d, &other);
    second_answer a = read_text(d, &other, 2 * unit_of(PROGRAM));
    expect_answer(d, a, operand > OP_C ? ACCEPTED : LISTING, 0,
                  operand > OP_C ? 0 : first + modes[operand]);
    if (operand <= OP_C)
        d->reached.listings.wrong[l[1].op][operand][l[1].modes[operand]]++;
    /* one flag is for both: fp beside a cell is an instruction with fp twice */
    if (l[1].op >= L_XADD && operand == OP_B && l[1].modes[OP_A] + l[1].modes[OP_B] == L_CELL + L_FP)
        return;
    a = list_lines(d, l, 2, 2 * LONGEST_LINE);
    expect_answer(d, a, operand > OP_C ? ACCEPTED : INSTRUCTION, operand <= OP_C, operand <= OP_C);
}

static void every_mode(differ *d)
{
    listed l[2];
    for (uint32_t shape = 0; shape < SHAPES; shape++) {
        some_lines(&d->random, l, 1);
        set_shape(&l[1], shape);
        some_numbers(&d->random, &l[1]);
        if (l[1].op < L_XADD)
            l[1].be = 0;
        try_modes(d, l);
    }
}

/* One instruction of every flag and opcode word, 0, 1 or another, with DATA of
 * which the first eight but 0 are good.  Calls at a page are slow, and what is
 * tried here needs none. */
static void every_instruction(differ *d)
{
    static const uint32_t data[] = { 0, 36, 38, 40, 42, 48, 50, 16 + (1 << 25), 10 + (1 << 25), 1,
                                     4, 34, 44, 37, 52, 40 + (1 << 25), 60, P - 1 };
    uint8_t program[4 * FORM_WORDS];
    uint32_t accepted = 0, words[FORM_WORDS] = { 0 };
    for (uint32_t i = 0; i < 243 * 36 * 18 && !d->paged; i++) {
        uint32_t left = i / 18;
        words[W_DATA] = data[i % 18];
        words[W_AUX] = left % 4;
        left /= 4;
        for (uint32_t k = F_A; k <= W_JUMP; k++, left /= 3)
            words[k] = left % 3;
        for (uint32_t k = 0; k < FORM_WORDS; k++)
            store_word(program + 4 * k, words[k]);
        list_call c = { LISTER, program, sizeof program, LONGEST_LINE, WRITTEN_BYTES, ANSWER_BYTES };
        note_back(d, 0);
        note(d, "one instruction, choice %" PRIu32, i);
        accepted += call_listing(d, &c).verdict == ACCEPTED;
    }
    if (!d->paged && accepted != WELL_FORMED)
        differs(d, "of all instructions others are well-formed");
}

void try_listing_sweeps(differ *d)
{
    static listed l[SWEPT];
    lines_to_sweep(&d->random, l);
    print_lines(l, SWEPT, &whole);
    note_back(d, 0);
    note(d, "all lines");
    expect_answer(d, list_lines(d, l, SWEPT, whole.len), ACCEPTED, 0, 0);
    if (memcmp(d->slots[1].lent, whole.bytes, whole.len) != 0)
        differs(d, "all lines are listed otherwise than they are printed here");
    every_cut(d, SWEPT);
    for (uint32_t from = 0; from < SWEPT; from += BLOCK)
        every_change(d, l + from, SWEPT - from < BLOCK ? SWEPT - from : BLOCK);
    every_room(d, l + SWEPT - 3, 3);
    every_room(d, l + SWEPT - 1, 1);
    every_mode(d);
    every_instruction(d);
}
