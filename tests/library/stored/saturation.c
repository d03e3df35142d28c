/* Blocks with their saturation bit: each line of standard input has the number of records and of a pool's places, the records, and the 64 words of
 * a start. Writes number, position and the value of the bit's term, then number, position and bit of the run; a bit is 0 with a refusal. Ends with 1
 * if the results of a refusal are not 65,535, count 0 and the position, or the pool has changed. */
#include <inttypes.h>
#include <stdio.h>
#include <stdlib.h>

#include "neon_terms.h"

#define MOST 100
#define PLACES 65535
#define OLD 0x0123456789abcdefu

static int refused(const uint64_t *pool, const uint64_t *results) {
    for (int r = 0; r < 32; r++)
        if (results[r] != NEON_NO_NODE) return 0;
    for (size_t k = 0; k < 4 * PLACES; k++)
        if (pool[k] != OLD) return 0;
    return results[32] == 0 && results[34] == NEON_NO_NODE;
}

int main(void) {
    static uint64_t pool[4 * PLACES], records[NEON_RECORD * MOST], start[NEON_REGISTER_WORDS];
    uint64_t results[NEON_SATURATION_RESULTS], ran[NEON_RUN_RESULTS], value[NEON_VALUE], visits;
    size_t count, places;
    while (scanf("%zu %zu", &count, &places) == 2) {
        if (count > MOST || places > PLACES) return 1;
        for (size_t k = 0; k < NEON_RECORD * count; k++)
            if (scanf("%" SCNu64, &records[k]) != 1) return 1;
        for (size_t k = 0; k < NEON_REGISTER_WORDS; k++)
            if (scanf("%" SCNx64, &start[k]) != 1) return 1;
        for (size_t k = 0; k < 4 * PLACES; k++) pool[k] = OLD;
        uint64_t number = neon_lower_block_saturation(pool, 4 * places, records, NEON_RECORD * count, results);
        value[0] = 0;
        if (number != NEON_DONE && !refused(pool, results)) return 1;
        if (number == NEON_DONE && neon_value(pool, 4 * places, results[32], results[34], start, 1u << 24, value, &visits) != NEON_DONE) return 1;
        uint64_t run = neon_run_block(start, records, NEON_RECORD * count, ran);
        printf("%" PRIu64 " %" PRIu64 " %" PRIu64 " %" PRIu64 " %" PRIu64 " %" PRIu64 "\n", number, results[33], value[0], run, ran[0], ran[1]);
    }
    return !feof(stdin);
}
