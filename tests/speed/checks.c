/* A run of range checks, for the clock. */
#include <string.h>

#include "inputs.h"

void speed_check(speed_input *in)
{
    uint32_t cell = (uint32_t)in->cells - 1, word; /* what cell 0 holds, to which 0 leads */
    memcpy(&word, in->memory, sizeof word);
    const uint32_t pair[2][12] = {{cell, 0, word, 0, 1, 1, [10] = 2}, {cell, 0, cell, 0, 1, [10] = 1}};
    for (size_t i = 0; i + 1 < in->height; i++)
        memcpy(in->program + 48 * i, pair[i % 2], sizeof pair[0]);
}
