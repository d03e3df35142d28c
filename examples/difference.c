/* Writes the script that asks a solver whether two routines can leave different numbers in v0: each is lowered on its own, the pools are
 * joined, and the script is about the two terms in the joined pool. */
#include <stdio.h>
#include <stdlib.h>

#include "neon_terms.h"

int main(void) {
    /* ushr v0.2d, v1.2d, #3; and ushr v2.2d, v1.2d, #1, then ushr v0.2d, v2.2d, #2 */
    const uint64_t old_routine[] = {NEON_OP_USHR, NEON_2D, 3, 0, 1, 0};
    const uint64_t new_routine[] = {NEON_OP_USHR, NEON_2D, 1, 2, 1, 0, NEON_OP_USHR, NEON_2D, 2, 0, 2, 0};
    static uint64_t first[NEON_BLOCK_WORDS(1)], second[NEON_BLOCK_WORDS(2)];
    const size_t words = NEON_BLOCK_WORDS(1) + NEON_BLOCK_WORDS(2);
    uint64_t a[NEON_RESULTS], b[NEON_RESULTS], *joined = calloc(words, sizeof *joined), number;
    size_t node = 0, count = 0, length = 0;
    if (joined == NULL) return 2;
    number = neon_lower_block(first, NEON_BLOCK_WORDS(1), old_routine, NEON_RECORD, a);
    if (number == NEON_DONE) number = neon_lower_block(second, NEON_BLOCK_WORDS(2), new_routine, 2 * NEON_RECORD, b);
    if (number == NEON_DONE) {
        number = neon_join(first, NEON_BLOCK_WORDS(1), a[32], a[0], second, NEON_BLOCK_WORDS(2), b[32], b[0], joined, words, &node, &count);
    }
    /* the second pool's nodes from 32 on are renumbered by the first's count less 32 */
    const size_t other = b[0] < 32 ? b[0] : b[0] + a[32] - 32;
    if (number == NEON_DONE) number = neon_script_length(joined, words, count, a[0], other, &length);
    uint8_t *script = malloc(length + 1);
    if (number == NEON_DONE && script != NULL) number = neon_write_script(joined, words, count, a[0], other, script, length, &length);
    if (number != NEON_DONE || script == NULL || fwrite(script, 1, length, stdout) != length) {
        fprintf(stderr, "difference: number %d\n", (int)number);
        return 1;
    }
    free(script);
    free(joined);
    return 0;
}
