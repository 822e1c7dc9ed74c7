/* Inside only: words modulo p, and elements of five words with
 * X^5 = 1 - X^2. */
#ifndef SECOND_WORD_H
#define SECOND_WORD_H

#include <stdbool.h>
#include <stdint.h>

#define P 2130706433u /* 2^31 - 2^24 + 1 */

typedef struct {
    uint32_t at[5]; /* lowest power first */
} element;

static inline uint32_t load_word(const uint8_t *from)
{
    return (uint32_t)from[0] | (uint32_t)from[1] << 8
         | (uint32_t)from[2] << 16 | (uint32_t)from[3] << 24;
}

static inline void store_word(uint8_t *to, uint32_t word)
{
    to[0] = (uint8_t)word;
    to[1] = (uint8_t)(word >> 8);
    to[2] = (uint8_t)(word >> 16);
    to[3] = (uint8_t)(word >> 24);
}

/* Words in and out of these three are below p. */
static inline uint32_t word_add(uint32_t a, uint32_t b)
{
    uint32_t sum = a + b; /* below 2^32, as p is below 2^31 */
    return sum >= P ? sum - P : sum;
}

static inline uint32_t word_sub(uint32_t a, uint32_t b)
{
    return a >= b ? a - b : a + (P - b);
}

static inline uint32_t word_mul(uint32_t a, uint32_t b)
{
    return (uint32_t)((uint64_t)a * b % P);
}

static inline element element_of_word(uint32_t word)
{
    element e = { { word, 0, 0, 0, 0 } };
    return e;
}

static inline element element_add(element a, element b)
{
    for (int i = 0; i < 5; i++)
        a.at[i] = word_add(a.at[i], b.at[i]);
    return a;
}

static inline element element_sub(element a, element b)
{
    for (int i = 0; i < 5; i++)
        a.at[i] = word_sub(a.at[i], b.at[i]);
    return a;
}

static inline element element_scale(uint32_t word, element a)
{
    for (int i = 0; i < 5; i++)
        a.at[i] = word_mul(word, a.at[i]);
    return a;
}

/* Four products of words fit in 64 bits with more than 2^57 to spare; the one
 * coefficient of five products is reduced on the way. */
static inline element element_mul(element a, element b)
{
    uint64_t x[5], d[9];
    for (int i = 0; i < 5; i++)
        x[i] = a.at[i];
    const uint32_t *y = b.at;
    d[0] = x[0] * y[0];
    d[1] = x[0] * y[1] + x[1] * y[0];
    d[2] = x[0] * y[2] + x[1] * y[1] + x[2] * y[0];
    d[3] = x[0] * y[3] + x[1] * y[2] + x[2] * y[1] + x[3] * y[0];
    d[4] = (x[0] * y[4] + x[1] * y[3] + x[2] * y[2] + x[3] * y[1]) % P
         + x[4] * y[0];
    d[5] = (x[1] * y[4] + x[2] * y[3] + x[3] * y[2] + x[4] * y[1]) % P;
    d[6] = (x[2] * y[4] + x[3] * y[3] + x[4] * y[2]) % P;
    d[7] = (x[3] * y[4] + x[4] * y[3]) % P;
    d[8] = x[4] * y[4] % P;
    /* X^5 = 1 - X^2, X^6 = X - X^3, X^7 = X^2 - X^4, X^8 = X^3 + X^2 - 1 */
    element e = { {
        (uint32_t)((d[0] + d[5] + (P - d[8])) % P),
        (uint32_t)((d[1] + d[6]) % P),
        (uint32_t)((d[2] + (P - d[5]) + d[7] + d[8]) % P),
        (uint32_t)((d[3] + (P - d[6]) + d[8]) % P),
        (uint32_t)((d[4] + (P - d[7])) % P),
    } };
    return e;
}

/* a*b + (1-a)*(1-b) */
static inline element element_peq(element a, element b)
{
    element one = element_of_word(1);
    return element_add(element_mul(a, b),
                       element_mul(element_sub(one, a), element_sub(one, b)));
}

static inline bool element_is_zero(element a)
{
    return (a.at[0] | a.at[1] | a.at[2] | a.at[3] | a.at[4]) == 0;
}

static inline bool element_same(element a, element b)
{
    return element_is_zero(element_sub(a, b));
}

#endif
