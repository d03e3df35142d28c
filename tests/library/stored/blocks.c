/* Reads blocks as `oracle block` does, a line `--` between two, and writes for each the number and the position and, for 0, the
 * structural hash of each register's term: 64-bit FNV-1a over the kind, the width, words 2 and 3 and the operands' hashes. */
#include <inttypes.h>
#include <stdio.h>
#include <stdlib.h>
#include <string.h>

#include "neon_terms.h"

#define MOST 100

static uint64_t mix(uint64_t hash, uint64_t word, int bytes) {
    for (int k = 0; k < bytes; k++) {
        hash = (hash ^ (word >> (8 * k) & 0xff)) * 0x100000001b3u;
    }
    return hash;
}

static int operands(uint64_t kind) {
    switch (kind) {
    case NEON_VAR:
    case NEON_CONST:
        return 0;
    case NEON_EXTRACT:
    case NEON_ZERO_EXTEND:
    case NEON_SIGN_EXTEND:
        return 1;
    case NEON_ITE:
        return 3;
    default:
        return 2;
    }
}

static void hash_nodes(const uint64_t *pool, size_t count, uint64_t *hashes) {
    for (size_t n = 0; n < count; n++) {
        const uint64_t *node = pool + 4 * n;
        uint64_t hash = mix(0xcbf29ce484222325u, node[0] & 0xffff, 1);
        hash = mix(mix(mix(hash, node[0] >> 16, 2), node[2], 8), node[3], 8);
        for (int k = 0; k < operands(node[0] & 0xffff); k++) {
            hash = mix(hash, hashes[node[1] >> (16 * k) & 0xffff], 8);
        }
        hashes[n] = hash;
    }
}

static void answer(const uint64_t *records, size_t count) {
    static uint64_t pool[NEON_BLOCK_WORDS(NEON_MOST_RECORDS)];
    static uint64_t hashes[NEON_BLOCK_WORDS(NEON_MOST_RECORDS) / 4];
    uint64_t results[NEON_RESULTS];
    size_t words = sizeof pool / sizeof *pool;
    uint64_t number = neon_lower_block(pool, words, records, NEON_RECORD * count, results);
    printf("%" PRIu64 " %" PRIu64 "\n", number, results[33]);
    if (number != NEON_DONE) {
        return;
    }
    if (!neon_pool_check(pool, words, results[32])) {
        printf("bad pool\n");
        return;
    }
    hash_nodes(pool, results[32], hashes);
    for (int r = 0; r < 32; r++) {
        printf("%d %016" PRIx64 "\n", r, hashes[results[r]]);
    }
}

int main(void) {
    static uint64_t records[NEON_RECORD * MOST];
    char line[64];
    size_t count = 0;
    while (fgets(line, sizeof line, stdin) != NULL) {
        if (strcmp(line, "--\n") == 0) {
            answer(records, count);
            count = 0;
        } else if (count < MOST && strlen(line) == 25) {
            for (int k = 0; k < NEON_RECORD; k++) {
                char field[5] = {0};
                memcpy(field, line + 4 * k, 4);
                records[NEON_RECORD * count + k] = strtoull(field, NULL, 10);
            }
            count++;
        } else {
            return 1;
        }
    }
    answer(records, count);
    return 0;
}
