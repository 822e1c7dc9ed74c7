/* uisnabar list: a program as text, on standard output. */
#include <stdlib.h>

#include "cli.h"

struct listing {
    uint8_t *text;
    size_t room, len;
};

/* so much that no listing is SHORT; what a shorter one leaves is never touched, and so takes no memory */
static size_t room_for(const struct given *given)
{
    size_t count = rows_of(given, PROGRAM);
    return UISNABAR_LINE_BYTES * (count < MOST ? count : MOST);
}

static struct answer ask(struct bytes program, struct listing *listing)
{
    uint8_t bytes[UISNABAR_ANSWER_BYTES] = {0}, len[UISNABAR_WRITTEN_BYTES] = {0};
    uint32_t verdict = uisnabar_list(program.at, program.len, listing->text, listing->room, len, sizeof len, bytes, sizeof bytes);
    listing->len = word_at(len);
    return answer_of(verdict, bytes);
}

/* standard output, which may go to a file, is for the listing alone: a refusal's lines stand before its sentence */
static void list_sentence(FILE *out, const struct given *given, struct answer answer, size_t len)
{
    if (answer.verdict == UISNABAR_ACCEPTED) {
        fprintf(out, "ACCEPTED: the program, %zu bytes, is listed in %zu bytes\n", given->part[PROGRAM].len, len);
        return;
    }
    print_lines(out, answer);
    judge_sentence(out, given, answer); /* SIZE, WORD and INSTRUCTION, of part 1 */
    if (answer.verdict == UISNABAR_INSTRUCTION)
        print_row(out, given, PROGRAM, answer.place);
}

int list(int count, char **words)
{
    struct given given = {0};
    if (count != 1 || words[0][0] == '-')
        return failed("list takes one file, PROGRAM, and no option");
    if (map_file(words[0], &given.part[PROGRAM]))
        return FAILED;
    struct listing listing = {.room = room_for(&given)};
    listing.text = malloc(listing.room + 1); /* never of 0 bytes, which may be none */
    if (!listing.text)
        return failed("there is no memory for the %zu bytes that a listing may have", listing.room);
    struct answer answer = ask(given.part[PROGRAM], &listing);
    fwrite(listing.text, 1, listing.len, stdout);
    free(listing.text);
    if (written())
        return FAILED;
    list_sentence(stderr, &given, answer, listing.len);
    return status_of(answer);
}
