// A query in plain C, with either matcher: document 01's rules on the blocks. A batch of queries, request (v) of 02, by the library's algorithm (crates/batch):
// what each query searches is worked out first; then each molecule is decoded once.
#include "peer.h"

#include <string.h>

enum { BLOCK = 512, BASES = 28, MATES = 188, MOTIF_BASES = 20, MOTIF_MATES = 140, SEARCHED = 380, HITS = 444, MAP = 64, SLOTS = 64, BLOCKS = 512 };

static int bit(const uint8_t *map, int d) { return map[d / 8] >> d % 8 & 1; }
static void set_bit(uint8_t *map, int d) { map[d / 8] |= 1 << d % 8; }
static uint16_t word(const uint8_t *s) { return s[0] | s[1] << 8; }

static void put_word(uint8_t *s, uint16_t x) {
    s[0] = x;
    s[1] = x >> 8;
}

// Whether the entry keeps this very motif.
static int keeps(const uint8_t *entry, const uint8_t *p, const uint16_t *pm, int m) {
    if (entry[0] == 0 || entry[1] != m || memcmp(entry + MOTIF_BASES, p, m)) return 0;
    for (int j = 0; j < m; j++)
        if (word(entry + MOTIF_MATES + 2 * j) != pm[j]) return 0;
    return 1;
}

static void put_entry(uint8_t *entry, const uint8_t *p, const uint16_t *pm, int m, const uint8_t *searched, const uint8_t *found) {
    memset(entry, 0, BLOCK);
    entry[0] = 2;
    entry[1] = m;
    memcpy(entry + MOTIF_BASES, p, m);
    for (int j = 0; j < m; j++) put_word(entry + MOTIF_MATES + 2 * j, pm[j]);
    memcpy(entry + SEARCHED, searched, MAP);
    memcpy(entry + HITS, found, MAP);
    peer_put_checksum(entry);
}

// The mates of a molecule block or a motif block.
static void read_mates(const uint8_t *block, uint16_t *mates) {
    for (int i = 0, n = block[1]; i < n; i++) mates[i] = word(block + MATES + 2 * i);
}

static int block_embeds(peer_embeds *embeds, peer_motif *motif, const uint8_t *block, uint16_t *work) {
    uint16_t mates[PEER_MOLECULE];
    read_mates(block, mates);
    return embeds(motif, block + BASES, mates, block[1], work);
}

// Zeroes each unsound block.
static void clean(uint8_t *cache, size_t slots) {
    for (size_t s = 0; s < slots; s++)
        if (walk_unsound_entry(cache + BLOCK * s, 1) == 0) memset(cache + BLOCK * s, 0, BLOCK);
}

static size_t slot_of(const uint8_t *p, const uint16_t *pm, size_t m, size_t slots) {
    size_t key = 0;
    for (size_t j = 0; j < m; j++) key += p[j] + pm[j];
    return key % slots;
}

long peer_query(peer_embeds *embeds, const uint8_t *catalog, size_t blocks, uint8_t *cache, size_t slots, const uint8_t *p, const uint16_t *pm, size_t m,
                uint16_t *work, uint16_t *hits, size_t *searched) {
    uint8_t held[MAP] = {0}, found[MAP] = {0};
    size_t count = 0;
    if (walk_unsound_molecule(catalog, blocks) < blocks) return -1;
    clean(cache, slots);
    uint8_t *entry = cache + BLOCK * slot_of(p, pm, m, slots);
    int same = keeps(entry, p, pm, m);
    peer_small_tables room;
    peer_motif motif = PEER_MOTIF_OF(p, pm, m, &room);
    peer_prepare(&motif);
    *searched = 0;
    for (size_t d = 0; d < blocks; d++) {
        const uint8_t *block = catalog + BLOCK * d;
        if (!block[0]) continue;
        set_bit(held, d);
        int hit;
        if (same && bit(entry + SEARCHED, d)) {
            hit = bit(entry + HITS, d);
        } else {
            hit = block_embeds(embeds, &motif, block, work);
            ++*searched;
        }
        if (hit) {
            set_bit(found, d);
            hits[count++] = d;
        }
    }
    put_entry(entry, p, pm, m, held, found);
    return count;
}

// A motif of a batch: decoded, with its tables, its slot, the map of the molecules that its query searches and that of its hits.
typedef struct {
    peer_motif motif;
    peer_small_tables room;
    uint16_t mates[PEER_MOTIF];
    size_t slot;
    uint8_t todo[MAP], found[MAP];
} Query;

static void unpack(Query *query, const uint8_t *block, size_t slots) {
    read_mates(block, query->mates);
    query->motif = PEER_MOTIF_OF(block + BASES, query->mates, block[1], &query->room);
    peer_prepare(&query->motif);
    query->slot = slot_of(block + BASES, query->mates, block[1], slots);
    memset(query->found, 0, MAP);
}

static int keeps_motif(const uint8_t *entry, const Query *query) { return keeps(entry, query->motif.p, query->motif.pm, query->motif.m); }

static void put_query(uint8_t *entry, const Query *query, const uint8_t *searched) {
    put_entry(entry, query->motif.p, query->motif.pm, query->motif.m, searched, query->found);
}

static size_t bits_of(const uint8_t *map) {
    size_t count = 0;
    for (int i = 0; i < MAP; i++) count += __builtin_popcount(map[i]);
    return count;
}

// What each query searches, by a scratch copy of the cache in which each leaves its entry; gives the map of all that is read.
static void plan(Query *queries, size_t count, const uint8_t *cache, size_t slots, const uint8_t *held, uint8_t *read) {
    uint8_t scratch[SLOTS * BLOCK];
    memcpy(scratch, cache, slots * BLOCK);
    memset(read, 0, MAP);
    for (size_t t = 0; t < count; t++) {
        uint8_t *entry = scratch + BLOCK * queries[t].slot;
        int same = keeps_motif(entry, &queries[t]);
        for (int i = 0; i < MAP; i++) {
            queries[t].todo[i] = same ? held[i] & ~entry[SEARCHED + i] : held[i];
            read[i] |= queries[t].todo[i];
        }
        put_query(entry, &queries[t], held);
    }
}

// Decodes each molecule that is read once, then searches them for one query after the other.
static void search(Query *queries, size_t count, const uint8_t *catalog, size_t blocks, const uint8_t *read, uint16_t *work) {
    uint16_t mates[BLOCKS * PEER_MOLECULE];
    for (size_t d = 0; d < blocks; d++)
        if (bit(read, d)) read_mates(catalog + BLOCK * d, mates + PEER_MOLECULE * d);
    for (size_t t = 0; t < count; t++)
        for (size_t d = 0; d < blocks; d++) {
            const uint8_t *block = catalog + BLOCK * d;
            if (bit(queries[t].todo, d) && segments_embeds(&queries[t].motif, block + BASES, mates + PEER_MOLECULE * d, block[1], work))
                set_bit(queries[t].found, d);
        }
}

// The hits of a query, those that its slot's entry knows among them, and the entry written; gives their count.
static size_t answer_query(Query *query, uint8_t *cache, const uint8_t *held, size_t blocks, uint16_t *hits) {
    uint8_t *entry = cache + BLOCK * query->slot;
    size_t count = 0;
    if (keeps_motif(entry, query))
        for (int i = 0; i < MAP; i++) query->found[i] |= held[i] & entry[HITS + i];
    for (size_t d = 0; d < blocks; d++)
        if (bit(query->found, d)) hits[count++] = d;
    put_query(entry, query, held);
    return count;
}

int peer_batch(const uint8_t *catalog, size_t blocks, uint8_t *cache, size_t slots, const uint8_t *motifs, size_t count, uint16_t *work, uint16_t *hits,
               peer_batched *answer) {
    Query queries[PEER_MOTIFS];
    uint8_t held[MAP] = {0}, read[MAP];
    if (walk_unsound_molecule(catalog, blocks) < blocks || walk_no_motif(motifs, count) < count) return 0;
    for (size_t t = 0; t < count; t++)
        if (PEER_MOTIF < motifs[BLOCK * t + 1]) return 0;
    clean(cache, slots);
    for (size_t d = 0; d < blocks; d++)
        if (catalog[BLOCK * d]) set_bit(held, d);
    for (size_t t = 0; t < count; t++) unpack(&queries[t], motifs + BLOCK * t, slots);
    plan(queries, count, cache, slots, held, read);
    search(queries, count, catalog, blocks, read, work);
    memset(answer, 0, sizeof *answer);
    answer->read = bits_of(read);
    for (size_t t = 0; t < count; t++) {
        answer->searched[t] = bits_of(queries[t].todo);
        answer->counts[t] = answer_query(&queries[t], cache, held, blocks, hits + t * blocks);
    }
    return 1;
}
