/* Lowers two blocks that may be equal and prints the terms of v0. */
#include <stdio.h>
#include <stdlib.h>

#include "neon_terms.h"

enum { CEILING = 65536 };

/* Asks for the length of a text, and then writes it into as many bytes. */
static uint64_t print_text(const uint64_t *pool, size_t words, size_t count, size_t node) {
    uint8_t text[CEILING];
    uint64_t length;
    size_t written;
    uint64_t number = neon_text_length(pool, words, count, node, CEILING, &length);
    if (number != NEON_DONE) {
        return number;
    }
    if (length > CEILING) {
        return NEON_SHORT_BUFFER;
    }
    number = neon_write_text(pool, words, count, node, text, length, &written);
    if (number == NEON_DONE) {
        printf("%.*s\n", (int)written, (const char *)text);
    }
    return number;
}

static int show(const uint64_t *records, size_t count) {
    size_t words = NEON_BLOCK_WORDS(count);
    uint64_t *pool = calloc(words, sizeof *pool);
    uint64_t results[NEON_RESULTS];
    if (pool == NULL) {
        return 1;
    }
    uint64_t number = neon_lower_block(pool, words, records, NEON_RECORD * count, results);
    if (number == NEON_DONE) {
        number = print_text(pool, words, results[32], results[0]);
    }
    if (number != NEON_DONE) {
        printf("refused: %d, record %d\n", (int)number, (int)results[33]);
    }
    free(pool);
    return 0;
}

int main(void) {
    /* ushr v0.2d, v1.2d, #1; the same by a negative register shift; a shift of 65 bits, which is refused */
    const uint64_t by_number[] = {NEON_OP_USHR, NEON_2D, 1, 0, 1, 0};
    const uint64_t by_register[] = {NEON_OP_USHL, NEON_2D, 0, 0, 1, 2};
    const uint64_t bad[] = {NEON_OP_USHR, NEON_2D, 1, 0, 1, 0, NEON_OP_USHR, NEON_2D, 65, 0, 1, 0};
    return show(by_number, 1) || show(by_register, 1) || show(bad, 2);
}
