/* uisnabar host and uisnabar jump: a seed that is some draws on from another, on standard output. */
#include <inttypes.h>

#include "cli.h"

#define SEED "%016" PRIx64
enum { APART = 40 }; /* a host begins 2^40 draws on from the one before */

struct step {
    uint64_t seed, number, next; /* the two words, and the seed that is made of them */
};

/* what the two subcommands differ in; their functions of the library take and write the same */
struct way {
    const char *name, *second; /* the subcommand, and its second word as a sentence names it */
    uint32_t (*call)(uint64_t seed, uint64_t number, uint8_t *next, size_t next_len, uint8_t *answer, size_t answer_len);
    void (*say)(FILE *out, const struct step *step, struct answer answer);
};

static int take_words(int count, char **words, const struct way *way, struct step *step)
{
    if (count != 2)
        return failed("%s takes two words, SEED and %s, and no option: %d were handed in", way->name, way->second, count);
    return take_seed(words[0], &step->seed) ? FAILED : take_number(way->second, words[1], &step->number);
}

static struct answer ask(const struct way *way, struct step *step)
{
    uint8_t bytes[UISNABAR_ANSWER_BYTES] = {0}, next[UISNABAR_NEXT_BYTES] = {0};
    uint32_t verdict = way->call(step->seed, step->number, next, sizeof next, bytes, sizeof bytes);
    step->next = (uint64_t)word_at(next + 4) << 32 | word_at(next);
    return answer_of(verdict, bytes);
}

/* standard output is for a seed alone: on a refusal it has nothing, so that no script takes the old for the new */
static int run(int count, char **words, const struct way *way)
{
    struct step step;
    if (take_words(count, words, way, &step))
        return FAILED;
    struct answer answer = ask(way, &step);
    if (answer.verdict == UISNABAR_ACCEPTED)
        printf(SEED "\n", step.next);
    if (written())
        return FAILED;
    if (answer.verdict != UISNABAR_ACCEPTED)
        print_lines(stderr, answer);
    fprintf(stderr, "%s: ", uisnabar_name(answer.verdict));
    way->say(stderr, &step, answer);
    return status_of(answer);
}

static void host_sentence(FILE *out, const struct step *step, struct answer answer)
{
    if (answer.verdict == UISNABAR_ACCEPTED)
        fprintf(out, "host %" PRIu64 " begins with seed " SEED ", %" PRIu64 " draws on from seed " SEED "\n", step->number, step->next,
                step->number << APART, step->seed);
    else
        fprintf(out, "%" PRIu64 " is no host's number: hosts are 0 to %d, so no seed was written; number a campaign's hosts from 0 on\n",
                step->number, UISNABAR_HOSTS - 1);
}

/* no number of draws is refused */
static void jump_sentence(FILE *out, const struct step *step, struct answer answer)
{
    (void)answer;
    fprintf(out, "seed " SEED " is %" PRIu64 " draws on from seed " SEED "\n", step->next, step->number, step->seed);
}

int host(int count, char **words) { return run(count, words, &(struct way){"host", "K", uisnabar_host, host_sentence}); }

int jump(int count, char **words) { return run(count, words, &(struct way){"jump", "DRAWS", uisnabar_jump, jump_sentence}); }
