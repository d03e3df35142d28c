/* Routines in columns: for each line of standard input, the entries of a list and the bytes of a routine in hexadecimal digits and a point, writes the
 * library's number, the count and the position, and for 0 the numbers of the records. */
#include <inttypes.h>
#include <stdio.h>

#include "neon_terms.h"

#define MOST 1024

int main(void) {
    size_t entries, cases = 0;
    while (scanf("%zu ", &entries) == 1) {
        uint8_t text[MOST];
        uint64_t records[MOST];
        size_t length = 0, count, position;
        unsigned byte;
        while (length < MOST && scanf("%2x", &byte) == 1) text[length++] = (uint8_t)byte;
        if (getchar() != '.' || entries > MOST) return 1;
        for (size_t k = 0; k < MOST; k++) records[k] = 7;
        uint64_t number = neon_read_lines(text, length, records, entries, &count, &position);
        printf("%" PRIu64 " %zu %zu", number, count, position);
        for (size_t k = 0; k < 6 * count; k++) printf(" %" PRIu64, records[k]);
        for (size_t k = 6 * count; k < MOST; k++)
            if (records[k] != 7) return 2;
        printf("\n");
        cases++;
    }
    return cases > 0 && neon_version() == NEON_TERMS_VERSION ? 0 : 3;
}
