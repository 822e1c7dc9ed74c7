/* uisnabar judge: the library's judge on tables in files, of which the memory may be two. */
#include "cli.h"

static struct answer ask(const struct given *given)
{
    const struct bytes *part = given->part;
    uint8_t bytes[UISNABAR_ANSWER_BYTES] = {0};
    uint32_t verdict =
        uisnabar_judge(part[PROGRAM].at, part[PROGRAM].len, part[MEMORY].at, part[MEMORY].len, given->pc, given->fp, part[EXEC].at,
                       part[EXEC].len, part[EXT].at, part[EXT].len, bytes, sizeof bytes);
    return answer_of(verdict, bytes);
}

static struct answer ask_split(const struct given *given)
{
    const struct bytes *part = given->part;
    uint8_t bytes[UISNABAR_ANSWER_BYTES] = {0};
    uint32_t verdict = uisnabar_judge_split(part[PROGRAM].at, part[PROGRAM].len, given->public.at, given->public.len, part[MEMORY].at,
                                            part[MEMORY].len, given->pc, given->fp, part[EXEC].at, part[EXEC].len, part[EXT].at,
                                            part[EXT].len, bytes, sizeof bytes);
    return answer_of(verdict, bytes);
}

int judge(int count, char **words)
{
    struct request request = {.name = "judge", .takes = TABLES, .pastes = true, .splits = true};
    struct sums sums;
    int status = take_tables(count, words, &request);
    if (status == 0 && request.paste) /* sums before the judge: what is missing is said at once */
        status = sum_parts(&request.given, &sums);
    if (status)
        return status;
    struct answer answer = request.given.split ? ask_split(&request.given) : ask(&request.given);
    print_lines(stdout, answer);
    if (request.paste)
        print_paste(stdout, &request.given, answer, &sums);
    if (written())
        return FAILED;
    judge_sentence(stderr, &request.given, answer);
    return status_of(answer);
}
