/* Labels: four lines, v, seed, m and n. */
#include "parts.h"
#include "text.h"

#include <string.h>

enum { LONGEST = 37 };

/* The text and how much of it a valid label can still begin with. */
typedef struct {
    const uint8_t *text;
    size_t len, at;
} cursor;

/* Each reader below moves over the longest part that a valid label allows at
 * that point, so at a false return `at` is LABEL's place. */
static bool fixed(cursor *c, const char *want)
{
    for (; *want != 0; want++, c->at++)
        if (c->at == c->len || c->text[c->at] != (uint8_t)*want)
            return false;
    return true;
}

static bool sixteen_hex(cursor *c, uint64_t *seed)
{
    for (int i = 0; i < 16; i++, c->at++) {
        uint8_t b = c->at < c->len ? c->text[c->at] : 0;
        uint32_t digit;
        if (b >= '0' && b <= '9')
            digit = b - (uint32_t)'0';
        else if (b >= 'a' && b <= 'f')
            digit = b - (uint32_t)'a' + 10;
        else
            return false;
        *seed = *seed << 4 | digit;
    }
    return true;
}

/* A decimal digit from low to high is next. */
static bool digit(cursor *c, uint32_t low, uint32_t high, uint32_t *number)
{
    uint8_t b = c->at < c->len ? c->text[c->at] : 0;
    if (b < '0' + low || b > '0' + high)
        return false;
    *number = 10 * *number + (b - (uint32_t)'0');
    c->at++;
    return true;
}

/* 10 to 29: a 1 or 2 and one more digit. */
static bool number_m(cursor *c, uint32_t *m)
{
    return digit(c, 1, 2, m) && digit(c, 0, 9, m);
}

/* 1 to 124: a digit more is possible while the number stays in range. */
static bool number_n(cursor *c, uint32_t *n)
{
    if (!digit(c, 1, 9, n))
        return false;
    while (10 * *n <= 124) {
        uint32_t high = 124 - 10 * *n;
        if (!digit(c, 0, high < 9 ? high : 9, n))
            break;
    }
    return true;
}

second_answer second_read_label(const uint8_t *text, size_t len,
                                second_recipe *out)
{
    cursor c = { text, len, 0 };
    second_recipe r = { 0, 0, 0, 0 };
    bool good = fixed(&c, "v=") && digit(&c, 1, 2, &r.version)
             && fixed(&c, "\nseed=") && sixteen_hex(&c, &r.seed)
             && fixed(&c, "\nm=") && number_m(&c, &r.m)
             && fixed(&c, "\nn=") && number_n(&c, &r.n)
             && fixed(&c, "\n") && c.at == len;
    *out = good ? r : (second_recipe){ 0, 0, 0, 0 };
    return good ? answer(ACCEPTED, 0, 0, 0) : answer(LABEL, 0, c.at, 0);
}

static uint8_t *append_hex(uint8_t *to, uint64_t number)
{
    for (int shift = 60; shift >= 0; shift -= 4)
        *to++ = (uint8_t)"0123456789abcdef"[number >> shift & 15];
    return to;
}

second_answer second_write_label(second_recipe r, uint8_t *out, size_t len,
                                 uint32_t *length)
{
    uint8_t label[LONGEST], *end = label;
    *length = 0;
    if (!recipe_fits(r))
        return answer(SIZE, 0, 0, 0);
    end = append(end, "v=");
    end = append_decimal(end, r.version);
    end = append(end, "\nseed=");
    end = append_hex(end, r.seed);
    end = append(end, "\nm=");
    end = append_decimal(end, r.m);
    end = append(end, "\nn=");
    end = append_decimal(end, r.n);
    end = append(end, "\n");
    size_t need = (size_t)(end - label);
    if (len < need)
        return answer(SIZE, 5, need, 0);
    memcpy(out, label, need);
    *length = (uint32_t)need;
    return answer(ACCEPTED, 0, 0, 0);
}
