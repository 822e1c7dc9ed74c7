/* An answer: its numbers, its lines as the replay program prints them, and the exit status it makes. */
#include "cli.h"

struct answer answer_of(uint32_t verdict, const uint8_t *bytes)
{
    return (struct answer){.verdict = verdict,
                           .part = word_at(bytes + 4),
                           .place = word_at(bytes + 8),
                           .rule = word_at(bytes + 12),
                           .expected = word_at(bytes + 16),
                           .found = word_at(bytes + 20)};
}

int status_of(struct answer answer) { return answer.verdict == UISNABAR_ACCEPTED ? ACCEPTED : REFUSED; }

void print_lines(FILE *out, struct answer answer)
{
    fprintf(out, "verdict=%u\npart=%u\nplace=%u\nrule=%u\nexpected=%u\nfound=%u\n", answer.verdict, answer.part, answer.place, answer.rule,
           answer.expected, answer.found);
}
