/* The runner: blocks on standard input, each with its records, the registers before it, and the registers after it and the saturation bit
 * or the number and the position that refuse it, as in `B 1`, `5 0 8 0 1 0`, `S x0 .. x31`, `E x0 .. x31`, `Q 0` or `R 4 0`. A refused
 * block has the bit 0. Lines with `#` are passed over. Writes how many were run and how many refused, and how many bits were 1; ends with
 * 1 if the result differs. */
#include <inttypes.h>
#include <stdio.h>
#include <stdlib.h>
#include <string.h>

#include "neon_terms.h"

#define MOST 100

static int registers(const char *at, uint64_t *to) {
    for (int r = 0; r < 32; r++) {
        char word[17] = "";
        while (*at == ' ') at++;
        if (strspn(at, "0123456789abcdef") < 32) return 0;
        memcpy(word, at, 16);
        to[2 * r + 1] = strtoull(word, NULL, 16);
        memcpy(word, at + 16, 16);
        to[2 * r] = strtoull(word, NULL, 16);
        at += 32;
    }
    return 1;
}

int main(void) {
    static char line[2048];
    static uint64_t records[6 * MOST], start[NEON_REGISTER_WORDS], want[NEON_REGISTER_WORDS], now[NEON_REGISTER_WORDS];
    size_t count = 0;
    unsigned long run = 0, refused = 0, saturated = 0, judged = 0;
    uint64_t bit = 2;
    while (fgets(line, sizeof line, stdin) != NULL) {
        uint64_t *r = &records[6 * count], number = 0, position = 0, results[NEON_RUN_RESULTS];
        if (line[0] == '#') continue;
        if (line[0] == 'Q') {
            if (sscanf(line + 1, "%" SCNu64, &position) != 1) return 1;
            if (bit != position) {
                fprintf(stderr, "block %lu: the saturation bit is %" PRIu64 "\n", run + refused - 1, bit);
                return 1;
            }
            judged++;
            if (bit == 1) saturated++;
            continue;
        }
        if (line[0] == 'B') {
            count = 0;
            continue;
        }
        if (line[0] == 'S') {
            if (!registers(line + 1, start)) return 1;
            continue;
        }
        if (line[0] != 'E' && line[0] != 'R') {
            if (count == MOST) return 1;
            if (sscanf(line, "%" SCNu64 " %" SCNu64 " %" SCNu64 " %" SCNu64 " %" SCNu64 " %" SCNu64, r, r + 1, r + 2, r + 3, r + 4, r + 5) != 6) return 1;
            count++;
            continue;
        }
        memcpy(now, start, sizeof now);
        memcpy(want, start, sizeof want);
        if (line[0] == 'E' && !registers(line + 1, want)) return 1;
        if (line[0] == 'R' && sscanf(line + 1, "%" SCNu64 " %" SCNu64, &number, &position) != 2) return 1;
        uint64_t got = neon_run_block(now, records, 6 * count, results);
        bit = results[1];
        if (got != number || results[0] != position || bit > (number == 0) || memcmp(now, want, sizeof now) != 0) {
            fprintf(stderr, "block %lu: %" PRIu64 " at %" PRIu64 ", or other registers\n", run + refused, got, results[0]);
            return 1;
        }
        if (number == 0) run++;
        else refused++;
    }
    printf("%lu blocks run, %lu refused; %lu of %lu saturate\n", run, refused, saturated, judged);
    return run == 0 || judged == 0;
}
