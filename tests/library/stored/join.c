/* Two pools as one: for each three lines of standard input, two pools with their counts and nodes and the words of a third buffer,
 * writes the number, the node and the count and, for 0, a hash of the third pool's words. All other words of it have to stay. */
#include <inttypes.h>
#include <stdio.h>
#include <string.h>

#include "neon_terms.h"

#define MOST 1024

struct pool {
    uint64_t words[MOST];
    size_t size, count, node;
};

static int read_pool(struct pool *p) {
    if (scanf("%zu %zu %zu", &p->size, &p->count, &p->node) != 3 || p->size > MOST) return 0;
    for (size_t k = 0; k < p->size; k++)
        if (scanf("%" SCNx64, &p->words[k]) != 1) return 0;
    return 1;
}

int main(void) {
    static struct pool a, b;
    static uint64_t joined[MOST], old[MOST];
    size_t size, node, count;
    memset(old, 0x5a, sizeof old);
    while (read_pool(&a)) {
        if (!read_pool(&b) || scanf("%zu", &size) != 1 || size > MOST) return 1;
        memcpy(joined, old, sizeof old);
        uint64_t number = neon_join(a.words, a.size, a.count, a.node, b.words, b.size, b.count, b.node, joined, size, &node, &count);
        if (memcmp(joined + 4 * count, old, sizeof old - 32 * count) != 0) return 2;
        printf("%" PRIu64 " %zu %zu", number, node, count);
        if (number == NEON_DONE) {
            uint64_t hash = 0xcbf29ce484222325;
            for (size_t k = 0; k < 4 * count; k++) hash = (hash ^ joined[k]) * 0x100000001b3;
            printf(" %016" PRIx64, hash);
        }
        printf("\n");
    }
    return feof(stdin) ? 0 : 1;
}
