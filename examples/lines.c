/* Prints where the cues of a file stand, one a line: lines FILE. The number of a cue's first line, from 1, its count of lines, and its start and
 * end in milliseconds. */
#include <inttypes.h>
#include <stdio.h>
#include <stdlib.h>

#include "lent.h"
#include "spatzenherd.h"

int main(int argc, char **argv) {
    if (argc != 2) {
        fprintf(stderr, "usage: lines FILE\n");
        return 2;
    }
    size_t length;
    uint8_t *raw = whole_file(argv[1], &length);

    uint8_t *text = lend(3 * length);
    uint64_t values[8] = {0};
    uint64_t(*cues)[SPATZ_CUE_WORDS] = lend(0), (*regions)[SPATZ_REGION_WORDS] = lend(0), (*styles)[SPATZ_STYLE_WORDS] = lend(0);
    /* Tables of no rows: a file with lists is refused, and the values are their counts. */
    uint64_t refused = spatz_read_file(raw, length, text, 3 * length, cues, 0, regions, 0, styles, 0, values);
    if (refused == SPATZ_TABLE_TOO_SHORT) {
        size_t counts[3] = {values[0], values[1], values[2]};
        cues = lend(counts[0] * sizeof *cues);
        regions = lend(counts[1] * sizeof *regions);
        styles = lend(counts[2] * sizeof *styles);
        refused = spatz_read_file(raw, length, text, 3 * length, cues, counts[0], regions, counts[1], styles, counts[2], values);
    }
    if (refused != SPATZ_ACCEPTED) {
        fprintf(stderr, "refused %" PRIu64 "\n", refused);
        return 1;
    }
    for (size_t cue = 0; cue < values[0]; cue++)
        printf("%" PRIu64 " %" PRIu64 " %" PRIu64 " %" PRIu64 "\n", cues[cue][SPATZ_CUE_FIRST_LINE], cues[cue][SPATZ_CUE_LINES],
               cues[cue][SPATZ_CUE_START], cues[cue][SPATZ_CUE_END]);
    return 0;
}
