#include <stdio.h>
#include "neon_terms.h"

int main(void) {
    static uint64_t pool[NEON_BLOCK_WORDS(1)], results[NEON_RESULTS];
    static uint8_t text[4096];
    const uint64_t block[] = {NEON_OP_USHR, NEON_2D, 1, 0, 1, 0}; /* ushr v0.2d, v1.2d, #1 */
    size_t words = NEON_BLOCK_WORDS(1), length = 0;
    uint64_t number = neon_lower_block(pool, words, block, NEON_RECORD, results);
    if (number == NEON_DONE)
        number = neon_write_text(pool, words, results[32], results[0], text, sizeof text, &length);
    printf("%d %.*s\n", (int)number, (int)length, (const char *)text);
    return number != NEON_DONE;
}
