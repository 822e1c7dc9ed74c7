/* Inside only: text written piece by piece; each gives where the next goes. */
#ifndef SECOND_TEXT_H
#define SECOND_TEXT_H

#include <stdint.h>

static inline uint8_t *append(uint8_t *to, const char *text)
{
    for (; *text != 0; text++)
        *to++ = (uint8_t)*text;
    return to;
}

/* No leading zero; 20 digits at most. */
static inline uint8_t *append_decimal(uint8_t *to, uint64_t number)
{
    uint8_t digits[20];
    int count = 0;
    do {
        digits[count++] = (uint8_t)('0' + number % 10);
        number /= 10;
    } while (number != 0);
    while (count > 0)
        *to++ = digits[--count];
    return to;
}

#endif
