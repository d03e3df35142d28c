/* Whether two routines leave equal numbers in v0 at every start, without a solver: their graph folds, and an empty refutation is accepted. A
 * refutation that a prover found would be lent instead of none. */
#include <stdio.h>
#include <stdlib.h>

#include "neon_terms.h"

struct routine {
    uint64_t *pool;
    size_t words, count, node;
};

static struct routine lower(const uint64_t *records, size_t count) {
    struct routine r = {NULL, NEON_BLOCK_WORDS(count), 0, NEON_NO_NODE};
    uint64_t results[NEON_RESULTS];
    r.pool = calloc(r.words, sizeof *r.pool);
    if (r.pool != NULL && neon_lower_block(r.pool, r.words, records, NEON_RECORD * count, results) == NEON_DONE) {
        r.count = results[32];
        r.node = results[0];
    }
    return r;
}

/* The number of neon_equal on all bits; *step is the refused step. */
static uint64_t equal(struct routine a, struct routine b, const uint32_t *refutation, size_t length, size_t *step) {
    size_t gates, places;
    uint64_t number = neon_question_room(a.pool, a.words, a.count, b.pool, b.words, b.count, &gates, &places);
    if (number != NEON_DONE) return number;
    size_t marks = 2 * (NEON_INPUTS + gates), starts = length / 2 + 1;
    /* one piece for graph, bits, table, marks and starts; the table is one of zeros */
    uint64_t *memory = calloc(2 * gates + places + marks + starts, sizeof *memory);
    if (memory == NULL) return NEON_NO_ROOM;
    uint64_t *bits = memory + gates, *table = bits + places, *mark = table + gates;
    number = neon_equal(a.pool, a.words, a.count, a.node, b.pool, b.words, b.count, b.node, 127, 0, refutation, length, memory, gates, bits, places,
                        table, gates, mark, marks, mark + marks, starts, step);
    free(memory);
    return number;
}

static int show(const char *what, struct routine a, struct routine b) {
    const uint32_t none[1] = {0};
    size_t step = 0;
    uint64_t number = equal(a, b, none, 0, &step);
    if (number == NEON_DONE)
        printf("%s: equal\n", what);
    else
        printf("%s: %d, step %d\n", what, (int)number, (int)step);
    return number != NEON_DONE && number != NEON_REFUTATION;
}

int main(void) {
    const uint64_t once[] = {NEON_OP_USHR, NEON_2D, 3, 0, 1, 0};
    const uint64_t twice[] = {NEON_OP_USHR, NEON_2D, 1, 2, 1, 0, NEON_OP_USHR, NEON_2D, 2, 0, 2, 0};
    struct routine a = lower(once, 1), b = lower(twice, 2), c = lower(twice, 1);
    int failed = show("ushr #3; ushr #1, ushr #2", a, b);
    /* after the first of the two v0 is as it was */
    failed |= show("ushr #3; ushr #1", a, c);
    free(a.pool), free(b.pool), free(c.pool);
    return failed;
}
