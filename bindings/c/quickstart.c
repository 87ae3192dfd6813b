/* Adds a hairpin under number 0 and asks for the motif GC with its bond: the crate quickstart in C. */
#include "lakhido.h"

#include <stdio.h>

int main(void) {
    static uint8_t catalog[2 * LAKHIDO_BLOCK], cache[LAKHIDO_BLOCK]; /* zeros: two empty blocks, an empty cache */
    static uint16_t work[LAKHIDO_QUERY_WORK(2)], hits[2];
    const uint16_t hairpin_mates[] = {2, 1, 0}, motif_mates[] = {1, 0};

    lakhido_answer added =
        lakhido_add(catalog, sizeof catalog, cache, sizeof cache, 0, (const uint8_t *)"GAC", 3, hairpin_mates, 3);
    lakhido_answer found = lakhido_query(catalog, sizeof catalog, cache, sizeof cache, (const uint8_t *)"GC", 2, motif_mates, 2, work,
                                         LAKHIDO_QUERY_WORK(2), hits, 2);
    if (added.refusal || found.refusal) return 1;
    printf("%zu found, %zu searched, the first is molecule %u\n", found.value, found.searched, hits[0]);
    return 0;
}
