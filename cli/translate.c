/* uisnabar translate: a program of draft 0.5.0, written in the form of draft 0.6.0. */
#include <stdlib.h>

#include "cli.h"

/* the bytes that OLD becomes; where it is longer than a program may be, the library refuses it whatever the room is */
static size_t room_for(const struct given *given)
{
    size_t count = rows_of(given, OLD);
    return 4 * layouts[PROGRAM].words * (count < MOST ? count : MOST);
}

static struct answer ask(struct bytes old, uint8_t *program, size_t room)
{
    uint8_t bytes[UISNABAR_ANSWER_BYTES] = {0};
    return answer_of(uisnabar_translate(old.at, old.len, program, room, bytes, sizeof bytes), bytes);
}

/* nothing is made beside NEW before OLD is accepted */
static int give(struct answer answer, const char *path, struct bytes program)
{
    struct next next = {.path = path, .what = "program", .doing = "translating"};
    if (answer.verdict == UISNABAR_ACCEPTED)
        return take_next(&next) ? FAILED : replace(&next, program, answer);
    print_lines(stdout, answer);
    return written();
}

int translate(int count, char **words)
{
    struct given given = {0};
    if (count != 2 || words[0][0] == '-' || words[1][0] == '-')
        return failed("translate takes two files, OLD and NEW, and no option");
    if (map_file(words[0], &given.part[OLD]))
        return FAILED;
    size_t room = room_for(&given);
    uint8_t *program = malloc(room + 1); /* never of 0 bytes, which may be none */
    if (!program)
        return failed("there is no memory for the %zu bytes of the new program", room);
    struct answer answer = ask(given.part[OLD], program, room);
    int status = give(answer, words[1], (struct bytes){program, room});
    free(program);
    if (status)
        return status;
    translate_sentence(stderr, &given, answer);
    return status_of(answer);
}
