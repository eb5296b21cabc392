/* rewrite: reads a listing from standard input, keeps its module in tables, and writes it back to standard output.
 * Exit status: 0 written, 1 the listing is refused, 2 it cannot be got from standard input or put to standard output.
 */
#include "stagecheck.h"

#include <stdio.h>
#include <stdlib.h>

/* One byte more than a listing may have, so that a longer one is refused as such (limit 1). */
static uint8_t listing[STAGECHECK_MOST_BYTES + 1];
static uint64_t tables[STAGECHECK_TABLE_WORDS];

int main(void)
{
    uint64_t answer[STAGECHECK_ANSWER_WORDS];
    size_t length = fread(listing, 1, sizeof listing, stdin);
    if (ferror(stdin)) {
        return 2;
    }
    stagecheck_read(listing, length, tables, answer);
    if (answer[0] != STAGECHECK_ACCEPTED) {
        uint8_t name[64];
        int name_length = (int)stagecheck_name(answer[0], name, sizeof name);
        fprintf(stderr, "refused: %.*s\n", name_length, (const char *)name);
        return 1;
    }
    /* The listing is not needed any more: the tables say all that it said. A write without room says how much it
     * needs. */
    stagecheck_write(tables, NULL, 0, answer);
    size_t needed = (size_t)answer[2];
    uint8_t *out = malloc(needed);
    if (out == NULL) {
        return 2;
    }
    stagecheck_write(tables, out, needed, answer);
    size_t put = fwrite(out, 1, (size_t)answer[1], stdout);
    free(out);
    return put == needed && fclose(stdout) == 0 ? 0 : 2;
}
