/* A memory in two files, the public words and the rest. That a pair of lengths is bad is the library's word; which of
 * the two it is, and where a cell stands, is said here. docs/VERDICTS.md, "Public words in their own buffer", has the
 * same words (tests/cli_split.py). */
#include "cli.h"

/* a memory has 2^8 to 2^29 words, of which at most half are public */
enum { LEAST_LOG = 8, MOST_LOG = 29 };

/* whether so many bytes are 2^k words for a k between the two */
static bool is_power(size_t bytes, unsigned least, unsigned most)
{
    while (least < most && (size_t)4 << least < bytes)
        least++;
    return (size_t)4 << least == bytes;
}

void lengths_sentence(FILE *out, const struct given *given)
{
    size_t public = given->public.len, rest = given->part[MEMORY].len;
    fprintf(out, "the public words have %zu bytes and the rest %zu: ", public, rest);
    if (public == 0)
        fputs("without public words hand in the rest as MEMORY, without --public", out);
    else if (!is_power(public, 0, MOST_LOG - 1))
        fprintf(out, "%zu bytes are not 2^m' words with m' at most %d", public, MOST_LOG - 1);
    else if (rest == 0)
        fputs("without a rest hand in the public words as MEMORY, without --public", out);
    else if (is_power(rest, LEAST_LOG, MOST_LOG))
        fputs("the rest alone is a memory: it must not have the public words too", out);
    else
        fprintf(out, "together they have %zu bytes, which are not 2^m words with m from %d to %d", public + rest, LEAST_LOG, MOST_LOG);
    fputs("; the public words must be 2^m' words of 4 bytes and the rest 2^m - 2^m', m from 8 to 29, m' from 0 to m - 1\n", out);
}

void cell_sentence(FILE *out, const struct given *given, size_t cell)
{
    size_t public = given->public.len / 4;
    if (!given->split)
        return;
    if (cell < public)
        fprintf(out, "; cell %zu is word %zu of the public words", cell, cell);
    else
        fprintf(out, "; cell %zu is word %zu of the rest", cell, cell - public);
}
