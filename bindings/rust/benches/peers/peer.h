// Plain C peers of the library's calls, for the benchmark: the same work at the same optimization. Nothing is proved of them. Strands are no longer than the
// library's and valid but where a peer says that it checks them, and buffers are large enough. `work` is as large as the library's.
#ifndef PEER_H
#define PEER_H

#include <stddef.h>
#include <stdint.h>

// The number of arcs of a strand, and its depth.
typedef struct {
    size_t arcs, depth;
} peer_fold;

// The length of the longest closed prefix of the motif that embeds in the molecule, by document 003's rows (rows.c).
size_t rows_length(const uint8_t *p, const uint16_t *pm, size_t m, const uint8_t *q, const uint16_t *qm, size_t n, uint16_t *work);

// The same by the library's own algorithm and with every step of its call (segments.c): both strands are checked, and the molecule's fold is counted. Gives
// whether the strands are valid; where one is not, nothing is written.
int segments_length(const uint8_t *p, const uint16_t *pm, size_t m, const uint8_t *q, const uint16_t *qm, size_t n, uint16_t *work, size_t *length,
                    peer_fold *fold);

// The class of a letter: two bases match when their classes are equal, the same letter or both among T and U. The rows and the bounds compare classes; where
// there are no tables, a base of the motif is compared with the molecule's and with its other spelling. The library does so in the same places, but that it
// compares an arc at the top, and fills the rows of single bases, by the other spelling and not by classes.
static inline uint8_t peer_class(uint8_t b) { return b + (b == 'T'); }
static inline uint8_t peer_other(uint8_t b) { return b + (b == 'T') - (b == 'U'); }
static inline int peer_match(uint8_t a, uint8_t b) { return a == b || a == peer_other(b); }

// A motif for a search of many molecules. Of its tables (for each base two classes in one number, its own and 256 times that of its mate; for each class the
// row of an unbonded base) and of the bounds of the molecule at hand only segments.c makes use. They are lent.
typedef struct {
    const uint8_t *p;
    const uint16_t *pm;
    int m;
    uint16_t *classes, *steps, *bounds;
} peer_motif;

// Room for the tables of a motif and for bounds: of strands of the direct calls, and of a query or a batch.
enum { PEER_MOST = 4096, PEER_MOLECULE = 160, PEER_MOTIF = 120 };
typedef struct {
    uint16_t classes[PEER_MOST], steps[4 * (PEER_MOST + 1)], bounds[PEER_MOST + 1];
} peer_tables;
typedef struct {
    uint16_t classes[PEER_MOTIF], steps[4 * (PEER_MOTIF + 1)], bounds[PEER_MOLECULE + 1];
} peer_small_tables;

// The motif, with either room; its tables are not filled.
#define PEER_MOTIF_OF(p, pm, m, room) ((peer_motif){p, pm, m, (room)->classes, (room)->steps, (room)->bounds})

// Fills the tables.
void peer_prepare(peer_motif *motif);

// Whether the motif embeds in the molecule.
typedef int peer_embeds(peer_motif *motif, const uint8_t *q, const uint16_t *qm, size_t n, uint16_t *work);
peer_embeds rows_embeds, segments_embeds;

// Whether the window lo..hi of the molecule carries the motif (segments.c).
int segments_carries(peer_motif *motif, const uint8_t *q, const uint16_t *qm, int lo, int hi, uint16_t *work);

// A window of a molecule.
typedef struct {
    size_t start, length;
} peer_window;

// The shortest window of the molecule that carries the motif, of these the first, by the library's own algorithm and with every step of its call (window.c),
// as segments_length has them; where none carries it, the length is n + 1.
int window_tightest(const uint8_t *p, const uint16_t *pm, size_t m, const uint8_t *q, const uint16_t *qm, size_t n, uint16_t *work, peer_window *window,
                    peer_fold *fold);

// The left end of the longest arc directly in lo..hi, or hi. It stands here so that both matchers may have it inline.
static inline int peer_heaviest(const uint16_t *qm, int lo, int hi) {
    int best = hi, size = 0;
    for (int i = lo; i < hi; i++) {
        int k = qm[i];
        if (i < k) {
            if (size < k - i) best = i, size = k - i;
            i = k;
        }
    }
    return best;
}

// The least lengths of a motif and of a molecule.
enum { PEER_LEAST_MOTIF = 0, PEER_LEAST_MOLECULE = 1 };

// Whether a strand has `least` bases or more, its bases are letters and its mates in range, mutual and nested (sound.c).
int peer_strand_ok(const uint8_t *bases, const uint16_t *mates, size_t n, size_t least);

// The fold of a strand (sound.c).
peer_fold peer_fold_of(const uint16_t *mates, size_t n);

// The lowest unsound block of a buffer of molecule blocks, and of one of cache entries; the number of blocks where all are sound (sound.c). In one walk over
// the block in the library's stretches, and with a walk for the checksum alone.
typedef size_t peer_unsound(const uint8_t *buffer, size_t blocks);
peer_unsound walk_unsound_molecule, walk_unsound_entry, apart_unsound_molecule, apart_unsound_entry;

// The lowest block of a motif buffer that holds no motif, or the number of blocks (sound.c), in one walk.
size_t walk_no_motif(const uint8_t *motifs, size_t blocks);

// Writes the checksum of a block.
void peer_put_checksum(uint8_t *block);

// A query (query.c): the soundness pass over catalog and cache, the search by `embeds` of each held molecule that the cache does not know, the hits, and
// the entry written to the motif's slot. Gives the count of hits, or -1 where a block of the catalog is unsound.
long peer_query(peer_embeds *embeds, const uint8_t *catalog, size_t blocks, uint8_t *cache, size_t slots, const uint8_t *p, const uint16_t *pm, size_t m,
                uint16_t *work, uint16_t *hits, size_t *searched);

// What a batch answers: the number of molecules read, and for each motif the count of hits and of molecules searched.
enum { PEER_MOTIFS = 16 };
typedef struct {
    size_t read, counts[PEER_MOTIFS], searched[PEER_MOTIFS];
} peer_batched;

// A batch of `count` motif blocks (query.c) by the library's own algorithm, with every step of its call. The hits of motif t are from entry t * blocks on.
// Gives whether it is accepted: the catalog is sound and each block holds a motif that is not too long; where it is not, nothing is written.
int peer_batch(const uint8_t *catalog, size_t blocks, uint8_t *cache, size_t slots, const uint8_t *motifs, size_t count, uint16_t *work, uint16_t *hits,
               peer_batched *answer);

// Show (show.c): the length, the places of an embedding, and the molecule's fold. `rows` has (n + 1) (m + 1) numbers, a row for each position of the molecule.
size_t table_show(const uint8_t *p, const uint16_t *pm, size_t m, const uint8_t *q, const uint16_t *qm, size_t n, uint16_t *rows, uint16_t *places,
                  peer_fold *fold);

#endif
