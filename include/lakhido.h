/* Lakhido: motif search and answer cache for folded RNA.
 *
 * Link with crates/capi/out/libcapi.a, which `make archive` writes (x86-64). Each function is proved to give the answer and to leave the
 * buffers that this file describes, for all inputs that keep the rules of "Buffers" (crates/capi/src/lib.rt has the contracts). This file
 * is written by hand: tools/verify-interface holds its declarations and numbers to the library's source; its text nothing checks.
 *
 * Strands. A molecule or a motif is two buffers of one length: bases as bytes ('A', 'C', 'G', 'T', 'U') and mates as 16-bit numbers. Positions
 * count from 0. The mate of a base without a bond is its own position. Two mates i < j are an arc, and arcs must not cross.
 *
 * T and U. Two bases match when they are the same letter, or both are among 'T' and 'U': a motif embeds in a molecule whichever of the two letters
 * each of them has. A small letter is no letter. No call turns one letter into the other: blocks keep the letter as delivered, and in the cache a motif spelled
 * with 'T' and the same with 'U' are two motifs, with the same hits.
 *
 * The empty motif. A molecule has at least one base; a motif may have none: both its lengths are 0. The empty motif embeds in every molecule:
 * length answers 0, and so does show, which takes any `places` and leaves them as they are; verify answers 1 for no places and is refused by 9 for more;
 * window finds the window with start 0 and length 0; query lists every molecule of the catalog, and so does batch.
 *
 * Buffers. Each buffer is a pointer and its length in elements (bytes, or 16-bit numbers).
 * - A pointer to 16-bit numbers is aligned to 2 bytes. Pointers to bytes need no alignment.
 * - A buffer of length 0 is not read or written, and its pointer may be null. Any other pointer is valid for its whole length.
 * - A buffer that a call may write (no `const`) overlaps no other buffer of the same call. Buffers with `const` may overlap each other.
 * - `work` may hold anything: no answer depends on it. That it may be uninitialised is not proved. Every other buffer is initialised.
 * - No call allocates, keeps a pointer, or has state of its own: calls on buffers that no other thread writes may run at the same time.
 * - Beside its buffers a call uses stack: see LAKHIDO_STACK.
 *
 * Refusals. No call asks anything else of its caller. An input that breaks a rule is refused with a number of enum lakhido_refusal, a side
 * and a place, the first that applies in the order given at each function, and a refused call changes no byte of any buffer.
 */
#ifndef LAKHIDO_H
#define LAKHIDO_H

#include <stddef.h>
#include <stdint.h>

#ifdef __cplusplus
extern "C" {
#endif

/* The version of this file and of the library. */
#define LAKHIDO_VERSION "0.6.1"

/* Lengths of strands. For check, length, show, window and verify a molecule has 1 to LAKHIDO_MOST bases, a motif 0 to LAKHIDO_MOST. A molecule of
 * the catalog has 1 to LAKHIDO_MOLECULE_MOST, a motif of a query or a batch 0 to LAKHIDO_MOTIF_MOST. */
#define LAKHIDO_MOST 4096
#define LAKHIDO_MOLECULE_MOST 160
#define LAKHIDO_MOTIF_MOST 120

/* A block is LAKHIDO_BLOCK bytes. A catalog has 1 to LAKHIDO_BLOCKS_MOST blocks, block d for molecule d; a cache 1 to LAKHIDO_SLOTS_MOST.
 * A block of zeros is empty: a new catalog and a new cache are all zeros. A cache block, or slot, keeps the answers of one motif; motifs whose
 * key (sum of bytes and mates) is equal mod the number of blocks share one, and the later takes its place.
 * A cache is good for the catalog that it was filled with, as these calls left both. Beside another catalog, or put back from an older copy, it is
 * believed where its blocks are sound, and hits are wrong with no sign of it: replace both together, or zero the cache, which is always right. */
#define LAKHIDO_BLOCK 512
#define LAKHIDO_BLOCKS_MOST 512
#define LAKHIDO_SLOTS_MOST 64

/* The motifs of a batch: 1 to LAKHIDO_MOTIFS_MOST, each in a block of its own. */
#define LAKHIDO_MOTIFS_MOST 16

/* Entries of `work` for length, show and window, the motif having m and the molecule n bases; and for query, the motif having m bases, and
 * batch, the longest motif having m. A longer slice is fine. */
#define LAKHIDO_WORK(m, n) ((size_t)64 * ((size_t)(m) + 1) + (size_t)8 * (size_t)(n))
#define LAKHIDO_QUERY_WORK(m) LAKHIDO_WORK(m, LAKHIDO_MOLECULE_MOST)

/* Bytes of stack that are enough for any call (measured by a test of bindings/rust, not proved). */
#define LAKHIDO_STACK 1048576

/* The number of a refusal. The place is 0 where none is named. */
enum lakhido_refusal {
    LAKHIDO_ACCEPTED = 0,
    /* Side LAKHIDO_MOTIF or LAKHIDO_MOLECULE. */
    LAKHIDO_UNEQUAL_LENGTHS = 1,  /* bases and mates differ in length */
    LAKHIDO_NO_BASES = 2,         /* no bases, of the molecule: a motif may have none */
    LAKHIDO_TOO_LONG = 3,         /* more bases than the call takes; place: in a batch the index of the lowest such motif */
    LAKHIDO_BAD_LETTER = 4,       /* a base that is not A, C, G, T or U; place: the lowest */
    LAKHIDO_BAD_MATE = 5,         /* a mate that is no position; place: the lowest base that has one */
    LAKHIDO_MATES_NOT_MUTUAL = 6, /* place: the lowest i whose mate's mate is not i */
    LAKHIDO_ARCS_CROSS = 7,       /* arcs (a, b) and (i, j) with a < i < b < j; place: the lowest such i */
    /* Side LAKHIDO_NEITHER. */
    LAKHIDO_WORK_TOO_SHORT = 8,    /* fewer entries than LAKHIDO_WORK or LAKHIDO_QUERY_WORK says */
    LAKHIDO_WRONG_SLICE = 9,       /* show: fewer places than bases; verify: places not as many as bases; query: fewer hits than blocks;
                                    * batch: fewer hits than motifs times blocks */
    LAKHIDO_NOT_WHOLE_BLOCKS = 10, /* catalog or cache: not whole blocks, none, or too many */
    LAKHIDO_UNSOUND_BLOCK = 11,    /* an unsound block in the catalog; place: the lowest */
    LAKHIDO_NUMBER_TOO_LARGE = 12, /* a molecule number that is no block of the catalog */
    LAKHIDO_ALREADY_HELD = 13,     /* add: the number has a molecule */
    LAKHIDO_NOT_HELD = 14,         /* remove: the number has none */
    /* Side LAKHIDO_MOTIF. */
    LAKHIDO_BAD_MOTIFS = 15 /* the motif buffer of a batch is not 1 to LAKHIDO_MOTIFS_MOST whole blocks, place 0; or a block of it is unsound or empty,
                             * place: the lowest */
};

/* The side of a refusal. */
enum lakhido_side { LAKHIDO_MOTIF = 0, LAKHIDO_MOLECULE = 1, LAKHIDO_NEITHER = 2 };

/* What a call answers, but for window and batch. Refused: refusal, side and place, and 0 in the other fields. Accepted: 0 in refusal, side and place, and
 * in the other fields what the call says; 0 where it says nothing.
 *
 * `arcs` and `depth` are the molecule's, never the motif's, in check, length, show, verify (where `value` is 1 and where it is 0) and add; remove
 * and query have 0 there. `arcs` is how many arcs the molecule has, `depth` how deep they lie: the largest number of arcs of which each lies
 * inside the one before. One arc has depth 1, arcs side by side are as deep as the deepest of them, and without arcs the depth is 0. */
typedef struct lakhido_answer {
    size_t refusal;
    size_t side;
    size_t place;
    size_t value;
    size_t searched;
    size_t arcs;
    size_t depth;
} lakhido_answer;

/* What window answers. Refused: refusal, side and place, and 0 in the other fields. Accepted: 0 in refusal, side and place; `found` is 1 where a
 * window was found, with its `start` and `length`, else 0, and then start and length are 0 too; `arcs` and `depth` are the molecule's, as in
 * lakhido_answer, whether a window was found or not. Ask `found`, not start or length, whether there is a window. */
typedef struct lakhido_window_answer {
    size_t refusal;
    size_t side;
    size_t place;
    size_t found;
    size_t start;
    size_t length;
    size_t arcs;
    size_t depth;
} lakhido_window_answer;

/* What batch answers. Refused: refusal, side and place, and 0 in the other fields. Accepted: 0 in refusal, side and place; `read` is how many molecules
 * were read; `counts[t]` and `searched[t]` are what lakhido_query has in `value` and `searched` for motif t, and 0 where the batch has no motif t. */
typedef struct lakhido_batch_answer {
    size_t refusal;
    size_t side;
    size_t place;
    size_t read;
    size_t counts[LAKHIDO_MOTIFS_MOST];
    size_t searched[LAKHIDO_MOTIFS_MOST];
} lakhido_batch_answer;

/* Accepts a nested molecule of 1 to LAKHIDO_MOST bases.
 * arcs, depth: those of the molecule.
 * Refused by: 1 to 7 of the molecule. */
lakhido_answer lakhido_check(const uint8_t *bases, size_t bases_length, const uint16_t *mates, size_t mates_length);

/* value: the length L of the longest closed prefix of the motif that embeds in the molecule. (Closed: no arc of the motif has one end in the
 * prefix and one outside.) It is the motif's length exactly when the motif embeds.
 * arcs, depth: those of the molecule.
 * An accepted call leaves anything in `work`.
 * Refused by: 1 and 3 to 7 of the motif, 1 to 7 of the molecule, 8. */
lakhido_answer lakhido_length(const uint8_t *motif_bases, size_t motif_bases_length, const uint16_t *motif_mates, size_t motif_mates_length,
                              const uint8_t *bases, size_t bases_length, const uint16_t *mates, size_t mates_length, uint16_t *work,
                              size_t work_length);

/* value: L, as lakhido_length. Writes the position of each of the prefix's L bases in an embedding to the first L entries of `places`, and
 * keeps the later ones. `places` has at least as many entries as the motif has bases.
 * arcs, depth: those of the molecule.
 * An accepted call leaves anything in `work`.
 * Refused by: 1 and 3 to 7 of the motif, 1 to 7 of the molecule, 9, 8. */
lakhido_answer lakhido_show(const uint8_t *motif_bases, size_t motif_bases_length, const uint16_t *motif_mates, size_t motif_mates_length,
                            const uint8_t *bases, size_t bases_length, const uint16_t *mates, size_t mates_length, uint16_t *places,
                            size_t places_length, uint16_t *work, size_t work_length);

/* The tightest window of the molecule that carries the motif. A window is a stretch of the molecule, `length` bases from position `start`, taken
 * as a molecule of its own: it has the arcs with both ends in it, and a base whose mate lies outside is unbonded in it. It carries the motif where
 * the motif embeds in it.
 * found: 1 where the motif embeds in the molecule, else 0: then no window carries it.
 * start, length: of the windows that carry the motif the shortest, and of these the one with the least start; 0 where there is none.
 * arcs, depth: those of the molecule, not of the window, whatever `found` is.
 * An accepted call leaves anything in `work`.
 * Refused by: 1 and 3 to 7 of the motif, 1 to 7 of the molecule, 8. */
lakhido_window_answer lakhido_window(const uint8_t *motif_bases, size_t motif_bases_length, const uint16_t *motif_mates,
                                     size_t motif_mates_length, const uint8_t *bases, size_t bases_length, const uint16_t *mates,
                                     size_t mates_length, uint16_t *work, size_t work_length);

/* value: 1 where `places` is an embedding of the whole motif in the molecule, else 0. `places` has as many entries as the motif has bases, each
 * any number: a place past the molecule's end gives 0 and is not refused.
 * arcs, depth: those of the molecule, whatever `value` is.
 * Refused by: 1 and 3 to 7 of the motif, 1 to 7 of the molecule, 9. */
lakhido_answer lakhido_verify(const uint8_t *motif_bases, size_t motif_bases_length, const uint16_t *motif_mates, size_t motif_mates_length,
                              const uint8_t *bases, size_t bases_length, const uint16_t *mates, size_t mates_length, const uint16_t *places,
                              size_t places_length);

/* Writes a molecule of 1 to LAKHIDO_MOLECULE_MOST bases to block `number` of the catalog, and zeroes every unsound block of the cache.
 * arcs, depth: those of the molecule.
 * Refused by: 10, 11, 12, 13, then 1 to 7 of the molecule. */
lakhido_answer lakhido_add(uint8_t *catalog, size_t catalog_length, uint8_t *cache, size_t cache_length, size_t number, const uint8_t *bases,
                           size_t bases_length, const uint16_t *mates, size_t mates_length);

/* Zeroes block `number` of the catalog and every unsound block of the cache, and takes the number out of every cache entry.
 * Refused by: 10, 11, 12, 14. */
lakhido_answer lakhido_remove(uint8_t *catalog, size_t catalog_length, uint8_t *cache, size_t cache_length, size_t number);

/* value: how many molecules of the catalog the motif embeds in. Writes their numbers, rising, to the start of `hits`, and keeps the later
 * entries; `hits` has at least as many entries as the catalog has blocks. A sound cache entry of this motif is believed: so this holds of a
 * cache that was zeros at first and that these calls alone wrote, but for one altered byte in each block between one accepted call and the next.
 * searched: how many molecules were searched, the others being known from the cache.
 * Zeroes every unsound block of the cache and writes the block of the motif's slot. An accepted call leaves anything in `work`.
 * Refused by: 10, 11, 1 and 3 to 7 of the motif (0 to LAKHIDO_MOTIF_MOST bases), 9, 8. */
lakhido_answer lakhido_query(const uint8_t *catalog, size_t catalog_length, uint8_t *cache, size_t cache_length, const uint8_t *motif_bases,
                             size_t motif_bases_length, const uint16_t *motif_mates, size_t motif_mates_length, uint16_t *work,
                             size_t work_length, uint16_t *hits, size_t hits_length);

/* Queries for a family of motifs in one call, which reads each molecule once for all of them. Counts, hits, searched numbers and the cache afterwards
 * are those of lakhido_query for each motif in the order of the buffer, each with the cache that the one before left; so what is said there of a
 * believed cache entry holds here too.
 * `motifs` is 1 to LAKHIDO_MOTIFS_MOST blocks, motif t in the LAKHIDO_BLOCK bytes from LAKHIDO_BLOCK * t on, laid out as docs/FORMAT.md says of a motif
 * block: as a molecule of the catalog, but that the length may be 0. The motif with no bases is byte 0 = 1, byte 508 = 1, else zeros; a block of zeros is
 * empty and no motif. The same motif may stand there twice.
 * counts: for each motif how many molecules of the catalog it embeds in.
 * Writes their numbers, rising, to `hits`: with B blocks in the catalog those of motif t to the entries from t * B on, and keeps every other entry, those
 * between two lists too. `hits` has at least B entries for each motif. With B = 3, two motifs, the first in molecules 0 and 2, the second in 1, entries
 * 0, 1 and 3 are written: 0, 2 and 1.
 * searched: for each motif how many molecules its query searches. A motif that stands in the batch before, with no other motif of its slot between,
 * searches none; one whose slot another motif of the batch took last searches all.
 * read: how many molecules at least one of these queries searches, each counted once, however many do. If the first motif searches molecule 4 and the
 * second 3 and 4, `read` is 2.
 * Zeroes every unsound block of the cache and writes the blocks of the motifs' slots. `work` is that of the longest motif. An accepted call leaves
 * anything in `work`.
 * Refused by: 10, 11, 15, 3 of the motifs (0 to LAKHIDO_MOTIF_MOST bases), 9, 8. A block may have up to LAKHIDO_MOLECULE_MOST bases: one of 121 is
 * sound, and 3 refuses it. If block 0 has 121 bases and block 1 is empty, the refusal is 15 with place 1; without block 1 it is 3 with place 0. The
 * other rules of a motif are those of a sound block. */
lakhido_batch_answer lakhido_batch(const uint8_t *catalog, size_t catalog_length, uint8_t *cache, size_t cache_length, const uint8_t *motifs,
                                   size_t motifs_length, uint16_t *work, size_t work_length, uint16_t *hits, size_t hits_length);

#ifdef __cplusplus
}
#endif

#endif
