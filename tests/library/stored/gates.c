/* Questions and refutations: for each three lines of standard input, two pools with their counts and nodes, and a cut with a refutation, writes the
 * number of the question, the starts at which its literal is true, of 64, the number of the refutation and the refused step. Bit s of word k of a
 * series is bit k of the registers, from v0 on, at start s. Working memory is dirty but for the table. */
#include <inttypes.h>
#include <stdio.h>
#include <stdlib.h>
#include <string.h>

#include "neon_terms.h"

#define MOST 4096

struct pool {
    uint64_t words[MOST];
    size_t size, count, node;
};

static int read_pool(struct pool *p) {
    if (scanf("%zu %zu %zu", &p->size, &p->count, &p->node) != 3 || p->size > MOST) return 0;
    for (size_t k = 0; k < p->size; k++)
        if (scanf("%" SCNx64, &p->words[k]) != 1) return 0;
    return 1;
}

/* Memory of so many words, each of them `with`; one more, so that none is empty. */
static uint64_t *lend(size_t words, uint64_t with) {
    uint64_t *memory = malloc(8 * (words + 1));
    if (memory == NULL) exit(3);
    for (size_t k = 0; k <= words; k++) memory[k] = with;
    return memory;
}

static uint64_t truth(const uint64_t *variables, uint64_t literal) {
    return literal % 2 ? ~variables[literal / 2] : variables[literal / 2];
}

/* A literal at the 64 starts of the series. */
static uint64_t starts_of(const uint64_t *graph, size_t count, uint64_t literal) {
    uint64_t *variables = lend(NEON_INPUTS + count, 0), series = 0x9e3779b97f4a7c15;
    for (size_t k = 1; k < NEON_INPUTS; k++) {
        series ^= series << 13;
        series ^= series >> 7;
        series ^= series << 17;
        variables[k] = series;
    }
    for (size_t k = 0; k < count; k++)
        variables[NEON_INPUTS + k] = truth(variables, graph[k] & UINT32_MAX) & truth(variables, graph[k] >> 32);
    uint64_t value = truth(variables, literal);
    free(variables);
    return value;
}

int main(void) {
    static struct pool a, b;
    static uint32_t refutation[4 * MOST];
    size_t hi, lo, length;
    while (read_pool(&a)) {
        if (!read_pool(&b) || scanf("%zu %zu %zu", &hi, &lo, &length) != 3 || length > 4 * MOST) return 1;
        for (size_t k = 0; k < length; k++)
            if (scanf("%" SCNx32, &refutation[k]) != 1) return 1;
        size_t gates, places, count, step;
        uint64_t literal;
        neon_question_room(a.words, a.size, a.count, b.words, b.size, b.count, &gates, &places);
        size_t entries = gates, marks = 2 * (NEON_INPUTS + gates), steps = length / 2 + 1;
        uint64_t *graph = lend(gates, 0x5a5a5a5a5a5a5a5a), *bits = lend(places, 0x5a5a5a5a5a5a5a5a), *table = lend(entries, 0);
        uint64_t number = neon_question(a.words, a.size, a.count, a.node, b.words, b.size, b.count, b.node, hi, lo, graph, gates, bits, places,
                                        table, entries, &count, &literal);
        printf("%" PRIu64 " %" PRIx64, number, starts_of(graph, count, literal));
        uint64_t *mark = lend(marks, 1), *start = lend(steps, UINT64_MAX);
        memset(table, 0, 8 * entries);
        number = neon_equal(a.words, a.size, a.count, a.node, b.words, b.size, b.count, b.node, hi, lo, refutation, length, graph, gates, bits,
                            places, table, entries, mark, marks, start, steps, &step);
        printf(" %" PRIu64 " %zu\n", number, step);
        free(graph), free(bits), free(table), free(mark), free(start);
    }
    return feof(stdin) ? 0 : 1;
}
