/* uisnabar report: the counters of a grid as lines, and what of all that is possible they reach. */
#include "cli.h"

int report_forms(int count, char **words)
{
    uint8_t grid[UISNABAR_GRID_BYTES], text[UISNABAR_REPORT_BYTES]; /* so much that no report is refused */
    uint8_t bytes[UISNABAR_ANSWER_BYTES] = {0}, len[UISNABAR_WRITTEN_BYTES] = {0};
    if (count != 1 || words[0][0] == '-')
        return failed("report takes one file, GRID, and no option");
    if (read_grid(words[0], grid))
        return FAILED;
    uint32_t verdict = uisnabar_report(grid, sizeof grid, text, sizeof text, len, sizeof len, bytes, sizeof bytes);
    if (verdict != UISNABAR_ACCEPTED)
        return failed("%s: no report: %s", words[0], uisnabar_name(verdict));
    fwrite(text, 1, word_at(len), stdout);
    if (written())
        return FAILED;
    report_sentence(stderr, grid);
    print_missing(stderr, grid);
    return ACCEPTED;
}
