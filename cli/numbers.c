/* Numbers that are handed in as words: decimal ones, and seeds. */
#include <string.h>

#include "cli.h"

enum { SEED_DIGITS = 16 };

/* decimal digits and nothing else, at most 2^64 - 1 */
static bool number(const char *text, uint64_t *found)
{
    *found = 0;
    if (!*text)
        return false;
    for (; *text; text++) {
        uint64_t digit = (uint64_t)(*text - '0');
        if (*text < '0' || *text > '9' || *found > (UINT64_MAX - digit) / 10)
            return false;
        *found = 10 * *found + digit;
    }
    return true;
}

int take_number(const char *name, const char *text, uint64_t *found)
{
    if (number(text, found))
        return 0;
    return failed("%s takes a decimal number from 0 to 18446744073709551615, not \"%s\"", name, text);
}

int take_seed(const char *text, uint64_t *found)
{
    static const char digits[] = "0123456789abcdef";
    if (strlen(text) != SEED_DIGITS || strspn(text, digits) != SEED_DIGITS)
        return failed("SEED takes 16 lower-case hex digits, as stand behind a label's seed=, not \"%s\"", text);
    for (*found = 0; *text; text++)
        *found = *found << 4 | (uint64_t)(strchr(digits, *text) - digits);
    return 0;
}
