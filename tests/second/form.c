/* Lengths, words and instructions: verdicts 1, 2 and 3. */
#include "parts.h"

/* len is unit * 2^k for a k from low to high. */
static bool power_length(size_t len, uint64_t unit, int low, int high)
{
    for (int k = low; k <= high; k++)
        if (len == unit << k)
            return true;
    return false;
}

second_answer second_sizes(size_t program_len, size_t memory_len,
                           size_t exec_len, size_t ext_len)
{
    if (program_len % FORM_BYTES != 0
        || !instructions_fit(program_len / FORM_BYTES))
        return answer(SIZE, 1, 0, 0);
    if (!power_length(memory_len, 4, 8, 29))
        return answer(SIZE, 2, 0, 0);
    if (!power_length(exec_len, EXEC_BYTES, 8, 25))
        return answer(SIZE, 3, 0, 0);
    if (!power_length(ext_len, EXT_BYTES, 8, 20))
        return answer(SIZE, 4, 0, 0);
    return answer(ACCEPTED, 0, 0, 0);
}

/* Blocks are tested without a branch for each word; the block that has a bad
 * word is then searched. */
second_answer second_words(uint32_t part, const uint8_t *bytes, size_t len)
{
    const size_t block = 1024;
    size_t count = len / 4, done = 0;
    while (done < count) {
        size_t end = count - done < block ? count : done + block;
        uint32_t bad = 0;
        for (size_t i = done; i < end; i++)
            bad |= (uint32_t)(load_word(bytes + 4 * i) >= P);
        if (bad != 0)
            break;
        done = end;
    }
    while (done < count && load_word(bytes + 4 * done) < P)
        done++;
    return done < count ? answer(WORD, part, done, 0)
                        : answer(ACCEPTED, 0, 0, 0);
}

static bool data_is_good(uint32_t data)
{
    uint32_t kind = data % 32, n = data / 32;
    kind -= kind & 2; /* be */
    return (kind == 4 || kind == 8 || kind == 16)
        && n >= 1 && n <= (uint32_t)1 << 20;
}

static bool well_formed(const form *f)
{
    if (f->fa > 1 || f->fb > 1 || f->fc > 1 || f->fpc > 1 || f->fpab > 1)
        return false;
    if (f->fpab == 1 && (f->fa == 1 || f->fb == 1))
        return false;
    if (f->fc == 1 && f->fpc == 1)
        return false;
    if (is_extension(f))
        return data_is_good(f->data);
    if (f->fpab != 0 || f->data != 0)
        return false;
    if (f->mul == 0 && f->jump == 0 && f->aux == 1)
        return true; /* ADD */
    if (f->mul == 1 && f->jump == 0 && f->aux == 0)
        return true; /* MUL */
    if (f->mul == 0 && f->jump == 0 && f->aux == 2)
        return f->fa == 0 && f->fb == 1; /* DEREF */
    if (f->mul == 0 && f->jump == 1 && f->aux == 0)
        return f->fc == 0; /* JUMP */
    return false;
}

second_answer second_forms(const parts *in)
{
    for (uint64_t i = 0; i < in->instructions; i++) {
        form f = load_form(in->program + FORM_BYTES * i);
        if (!well_formed(&f))
            return answer(INSTRUCTION, 1, i, 0);
    }
    return answer(ACCEPTED, 0, 0, 0);
}
