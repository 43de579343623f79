/* Replaces the text and the times of one cue: replace FILE CUE START END TEXT. The new file goes to standard output; times are in
 * milliseconds, and the new cue has no identifier and no settings. */
#include <inttypes.h>
#include <stdio.h>
#include <stdlib.h>
#include <string.h>

#include "lent.h"
#include "spatzenherd.h"

int main(int argc, char **argv) {
    if (argc != 6) {
        fprintf(stderr, "usage: replace FILE CUE START END TEXT\n");
        return 2;
    }
    size_t length;
    uint8_t *raw = whole_file(argv[1], &length);

    const uint8_t *text = (const uint8_t *)argv[5];
    uint64_t row[SPATZ_NEW_CUE_WORDS] = {0}; /* 0 is the opening value of every choice but these two */
    row[SPATZ_CUE_START] = strtoull(argv[3], NULL, 10);
    row[SPATZ_CUE_END] = strtoull(argv[4], NULL, 10);
    row[SPATZ_CUE_TEXT_TO] = strlen(argv[5]);
    row[SPATZ_CUE_SIZE] = 100000000;
    row[SPATZ_CUE_ALIGN] = 1;

    size_t longest = length + strlen(argv[5]) + 64; /* the old file, the new text, and a timing line */
    uint8_t *scratch = lend(3 * length), *out = lend(longest);
    uint64_t values[8];
    uint64_t refused = spatz_replace(raw, length, strtoull(argv[2], NULL, 10), row, SPATZ_NEW_CUE_WORDS, text, strlen(argv[5]), scratch,
                                     3 * length, out, longest, values);
    if (refused != SPATZ_ACCEPTED) {
        fprintf(stderr, "refused %" PRIu64 "\n", refused);
        return 1;
    }
    return fwrite(out, 1, values[0], stdout) == values[0] ? 0 : 2;
}
