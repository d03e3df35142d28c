/* Scripts by lanes: for each line of standard input, a pool, two nodes, the bits of a lane and the size of a buffer, writes the number, the
 * length, the length that is asked for alone, and the FNV-1a hash of the script. Bytes past the script, and all of them after a refusal, have
 * to be as they were. */
#include <inttypes.h>
#include <stdio.h>
#include <stdlib.h>
#include <string.h>

#include "neon_terms.h"

#define MOST 256
#define ROOM 16384

int main(void) {
    static uint64_t pool[MOST];
    static uint8_t buffer[ROOM];
    size_t words, count, a, b, room, length, measured;
    uint64_t hi, lo;
    while (scanf("%zu %zu %zu %zu %" SCNu64 " %" SCNu64 " %zu", &words, &count, &a, &b, &hi, &lo, &room) == 7) {
        if (words > MOST || room > ROOM) return 1;
        for (size_t k = 0; k < words; k++)
            if (scanf("%" SCNx64, &pool[k]) != 1) return 1;
        memset(buffer, 0xa5, sizeof buffer);
        uint64_t number = neon_write_lane_script(pool, words, count, a, b, hi, lo, buffer, room, &length);
        uint64_t without = neon_lane_script_length(pool, words, count, a, b, hi, lo, &measured);
        if (without != (number == 9 ? 0 : number) || (number != 0 && length != 0)) return 2;
        uint64_t hash = UINT64_C(0xcbf29ce484222325);
        for (size_t k = 0; k < length; k++) hash = (hash ^ buffer[k]) * UINT64_C(0x100000001b3);
        for (size_t k = length; k < ROOM; k++)
            if (buffer[k] != 0xa5) return 3;
        printf("%" PRIu64 " %zu %zu %" PRIx64 "\n", number, length, measured, hash);
    }
    return 0;
}
