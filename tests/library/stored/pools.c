/* Damaged pools: for each line of standard input, a pool and the arguments of one instruction, writes whether the pool passes the
 * check, the instruction's number, and the number and the set of the registers beneath node n. A refusal has to leave the pool as it was. */
#include <inttypes.h>
#include <stdio.h>
#include <stdlib.h>
#include <string.h>

#include "neon_terms.h"

#define MOST 256

int main(void) {
    static uint64_t pool[MOST], old[MOST];
    size_t words, count, d, n, m, node, after;
    uint64_t operation, arrangement, i, set;
    while (scanf("%zu %zu %" SCNu64 " %" SCNu64 " %" SCNu64 " %zu %zu %zu", &words, &count, &operation, &arrangement, &i, &d, &n, &m) == 8) {
        if (words > MOST) return 1;
        for (size_t k = 0; k < words; k++)
            if (scanf("%" SCNx64, &pool[k]) != 1) return 1;
        memcpy(old, pool, sizeof pool);
        bool ok = neon_pool_check(pool, words, count);
        uint64_t number = neon_lower_instruction(pool, words, count, operation, arrangement, i, d, n, m, &node, &after);
        if (number != 0 && (node != 65535 || after != count || memcmp(old, pool, sizeof pool) != 0)) return 2;
        uint64_t asked = neon_registers_of(pool, words, count, n, &set);
        printf("%d %" PRIu64 " %" PRIu64 " %" PRIx64 "\n", ok, number, asked, set);
    }
    return 0;
}
