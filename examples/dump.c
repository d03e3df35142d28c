/* Dumps the canonical pool of a register after a block: dump REGISTER, the records on standard input, six numbers each. One line per node: its
 * number and its four words. Terms that are the same tree have the same dump, however they were lowered. */
#include <inttypes.h>
#include <stdio.h>
#include <stdlib.h>

#include "neon_terms.h"

int main(int argc, char **argv) {
    uint64_t records[NEON_RECORD * NEON_MOST_RECORDS], results[NEON_RESULTS], number;
    size_t numbers = 0, after = 0, words = NEON_BLOCK_WORDS(NEON_MOST_RECORDS), reg = argc == 2 ? strtoul(argv[1], NULL, 10) : 32;
    while (numbers < sizeof records / sizeof *records && scanf("%" SCNu64, &records[numbers]) == 1) numbers++;
    uint64_t *pool = calloc(words, sizeof *pool), *out = calloc(words, sizeof *out);
    if (reg > 31 || pool == NULL || out == NULL) {
        fprintf(stderr, "usage: dump REGISTER <RECORDS\n");
        return 2;
    }
    number = neon_lower_block(pool, words, records, numbers, results);
    if (number == NEON_DONE) number = neon_canonical(pool, words, results[32], results[reg], out, words, &after);
    if (number != NEON_DONE) fprintf(stderr, "refused: %" PRIu64 "\n", number);
    for (size_t n = 0; n < after; n++)
        printf("%zu %" PRIx64 " %" PRIx64 " %" PRIx64 " %" PRIx64 "\n", n, out[4 * n], out[4 * n + 1], out[4 * n + 2], out[4 * n + 3]);
    free(pool);
    free(out);
    return number == NEON_DONE ? 0 : 1;
}
