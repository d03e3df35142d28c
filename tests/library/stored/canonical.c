/* Canonical pools: for each line of standard input, a pool with its count and root and the words of an output buffer, writes the number,
 * the count and a hash of the output's nodes. All other words of it have to stay, and canonising its last node may change nothing. */
#include <inttypes.h>
#include <stdio.h>
#include <string.h>

#include "neon_terms.h"

#define MOST 256

int main(void) {
    static uint64_t pool[MOST], out[MOST], old[MOST], again[MOST];
    size_t words, count, root, size, after, second;
    memset(old, 0x5a, sizeof old);
    while (scanf("%zu %zu %zu %zu", &words, &count, &root, &size) == 4) {
        if (words > MOST || size > MOST) return 1;
        for (size_t k = 0; k < words; k++)
            if (scanf("%" SCNx64, &pool[k]) != 1) return 1;
        memcpy(out, old, sizeof old);
        uint64_t number = neon_canonical(pool, words, count, root, out, size, &after);
        if (memcmp(out + 4 * after, old, sizeof old - 32 * after) != 0) return 2;
        if (number == NEON_DONE) {
            if (neon_canonical(out, 4 * after, after, after - 1, again, MOST, &second) != NEON_DONE || second != after) return 3;
            if (memcmp(out, again, 32 * after) != 0) return 3;
        }
        uint64_t hash = 0xcbf29ce484222325;
        for (size_t k = 0; k < 4 * after; k++) hash = (hash ^ out[k]) * 0x100000001b3;
        printf("%" PRIu64 " %zu %016" PRIx64 "\n", number, after, hash);
    }
    return feof(stdin) ? 0 : 1;
}
