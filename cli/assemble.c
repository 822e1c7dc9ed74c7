/* uisnabar assemble: a listing, written as the program that it stands for. */
#include <stdlib.h>
#include <sys/stat.h>

#include "cli.h"

/* the shortest line, its LF too: op=add a=imm:0 b=imm:0 c=fp:0 */
enum { LINE_LEAST = 30 };

struct assembled {
    uint8_t *program;
    size_t room, len;
};

/* so much that no listing is SHORT, and no byte is read for it; what a program leaves of it is never touched */
static size_t room_for(struct bytes text)
{
    size_t lines = text.len / LINE_LEAST;
    return 4 * layouts[PROGRAM].words * (lines < MOST ? lines : MOST);
}

static struct answer ask(struct bytes text, struct assembled *to)
{
    uint8_t bytes[UISNABAR_ANSWER_BYTES] = {0}, len[UISNABAR_WRITTEN_BYTES] = {0};
    uint32_t verdict = uisnabar_read_listing(text.at, text.len, to->program, to->room, len, sizeof len, bytes, sizeof bytes);
    to->len = word_at(len);
    return answer_of(verdict, bytes);
}

/* nothing is made beside PROGRAM before LISTING is accepted */
static int give(struct answer answer, const char *path, const struct stat *listing, const struct assembled *to)
{
    struct next next = {.path = path, .what = "program", .doing = "assembling", .listing = listing};
    if (answer.verdict == UISNABAR_ACCEPTED)
        return take_next(&next) ? FAILED : replace(&next, (struct bytes){to->program, to->len}, answer);
    print_lines(stdout, answer);
    return written();
}

static void assemble_sentence(FILE *out, struct bytes text, struct answer answer, size_t len)
{
    fprintf(out, "%s: ", uisnabar_name(answer.verdict));
    if (answer.verdict == UISNABAR_ACCEPTED)
        fprintf(out, "the listing, %zu bytes, is now a program of " DRAFT ", %zu bytes\n", text.len, len);
    else
        expected_sentence(out, text, answer.place);
}

int assemble(int count, char **words)
{
    struct bytes text;
    struct stat listing;
    struct assembled to = {0};
    if (count != 2 || words[0][0] == '-' || words[1][0] == '-')
        return failed("assemble takes two files, LISTING and PROGRAM, and no option");
    if (map_known(words[0], &text, &listing))
        return FAILED;
    to.room = room_for(text);
    to.program = malloc(to.room + 1); /* never of 0 bytes, which may be none */
    if (!to.program)
        return failed("there is no memory for the %zu bytes that a program may have", to.room);
    struct answer answer = ask(text, &to);
    int status = give(answer, words[1], &listing, &to);
    free(to.program);
    if (status)
        return status;
    assemble_sentence(stderr, text, answer, to.len);
    return status_of(answer);
}
