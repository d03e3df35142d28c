/* Values of terms: a line `S` has the 64 words of a start; each other line of standard input a pool, a node and an allowance. Writes the
 * number, the three words of the value and the visits made. */
#include <inttypes.h>
#include <stdio.h>

#include "neon_terms.h"

#define MOST 256

static int words(uint64_t *to, size_t many) {
    for (size_t k = 0; k < many; k++)
        if (scanf("%" SCNx64, &to[k]) != 1) return 0;
    return 1;
}

int main(void) {
    static uint64_t pool[MOST], start[NEON_REGISTER_WORDS];
    uint64_t value[NEON_VALUE], allowance, visits;
    size_t count, node;
    char letter;
    while (scanf(" %c", &letter) == 1) {
        if (letter == 'S') {
            if (!words(start, NEON_REGISTER_WORDS)) return 1;
            continue;
        }
        ungetc(letter, stdin);
        if (scanf("%zu %zu %" SCNu64, &count, &node, &allowance) != 3 || 4 * count > MOST || !words(pool, 4 * count)) return 1;
        uint64_t number = neon_value(pool, 4 * count, count, node, start, allowance, value, &visits);
        printf("%" PRIu64 " %" PRIx64 " %" PRIx64 " %" PRIx64 " %" PRIu64 "\n", number, value[0], value[1], value[2], visits);
    }
    return 0;
}
