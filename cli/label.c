/* uisnabar label: a label from a file, or from standard input. */
#include "cli.h"

/* more than any label has: no later byte changes the answer, so endless input is answered too */
enum { ROOM = 4096 };

int label(int count, char **words)
{
    static uint8_t text[ROOM];
    uint8_t bytes[UISNABAR_ANSWER_BYTES] = {0}, recipe[UISNABAR_RECIPE_BYTES] = {0};
    size_t len;
    if (count > 1 || (count == 1 && words[0][0] == '-'))
        return failed("label takes one file at most, and no option; without a file it reads standard input");
    if (read_text(count == 1 ? words[0] : NULL, text, sizeof text, &len))
        return FAILED;
    struct answer answer = answer_of(uisnabar_label(text, len, bytes, sizeof bytes, recipe, sizeof recipe), bytes);
    print_lines(stdout, answer);
    if (written())
        return FAILED;
    label_sentence(stderr, (struct bytes){text, len}, answer, recipe);
    return status_of(answer);
}
