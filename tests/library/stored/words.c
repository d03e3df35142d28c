/* A64 words: for each line of standard input, `w` and a word of eight digits or `r` and a record of six numbers, writes the library's number
 * and, for 0, the record or the word. Then all words that are ours, as one list: it has to be read and written back as it was. */
#include <inttypes.h>
#include <stdio.h>
#include <string.h>

#include "neon_terms.h"

#define MOST 4096

static uint8_t all[4 * MOST + 4], back[4 * MOST];
static uint64_t records[6 * MOST];

static void put(uint8_t *bytes, uint32_t word) {
    for (int k = 0; k < 4; k++) bytes[k] = (uint8_t)(word >> 8 * k);
}

/* Whether a list of words is read and written back, and refused if it is too short or its last word is incomplete. */
static int whole(size_t words) {
    size_t count, position;
    if (neon_read_words(all, 4 * words, records, 6 * words, &count, &position) != 0 || count != words || position != 0) return 0;
    if (neon_write_words(records, 6 * words, back, 4 * words, &count, &position) != 0 || count != words || position != 0) return 0;
    if (memcmp(all, back, 4 * words) != 0) return 0;
    if (neon_read_words(all, 4 * words + 1, records, 6 * words, &count, &position) != NEON_WORD || count != 0 || position != words) return 0;
    if (neon_read_words(all, 4 * words, records, 6 * words - 1, &count, &position) != NEON_SHORT_BUFFER || count != 0 || position != 0) return 0;
    return neon_write_words(records, 6 * words, back, 4 * words - 1, &count, &position) == NEON_SHORT_BUFFER && count == 0 && position == 0;
}

int main(void) {
    char kind;
    size_t ours = 0, count, position;
    while (scanf(" %c", &kind) == 1) {
        uint64_t record[6] = {7, 7, 7, 7, 7, 7};
        uint8_t bytes[4] = {7, 7, 7, 7};
        if (kind == 'w') {
            uint32_t word;
            if (scanf("%8" SCNx32, &word) != 1) return 1;
            put(bytes, word);
            uint64_t number = neon_read_words(bytes, 4, record, 6, &count, &position);
            printf("%" PRIu64, number);
            for (int k = 0; k < 6; k++) {
                if (number != 0 && record[k] != 7) return 2;
                if (number == 0) printf(" %" PRIu64, record[k]);
            }
            if (number == 0 && ours < MOST) put(all + 4 * ours++, word);
        } else {
            for (int k = 0; k < 6; k++)
                if (scanf("%" SCNu64, &record[k]) != 1) return 1;
            uint64_t number = neon_write_words(record, 6, bytes, 4, &count, &position);
            printf("%" PRIu64, number);
            if (number == 0) printf(" %02x%02x%02x%02x", bytes[3], bytes[2], bytes[1], bytes[0]);
            else if (bytes[0] != 7 || bytes[1] != 7 || bytes[2] != 7 || bytes[3] != 7) return 2;
        }
        printf("\n");
    }
    return ours > 0 && whole(ours) ? 0 : 3;
}
