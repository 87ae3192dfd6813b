/* Calls each function of the library on document 01's small examples, some of the arcs and depth of a molecule, some of the tightest window, some of the
 * empty motif and some of batches, and prints ok. */
#include "lakhido.h"

#include <stdio.h>
#include <string.h>

#define BASES(s) (const uint8_t *)(s), sizeof(s) - 1
#define MATES(...) (const uint16_t[]){__VA_ARGS__}, sizeof((const uint16_t[]){__VA_ARGS__}) / sizeof(uint16_t)
#define NONE NULL, 0

static uint8_t catalog[2 * LAKHIDO_BLOCK], cache[LAKHIDO_BLOCK + 1];
static uint8_t motifs[(LAKHIDO_MOTIFS_MOST + 1) * LAKHIDO_BLOCK];
static uint16_t places[4], hits[3], lists[2 * LAKHIDO_MOTIFS_MOST + 1], work[LAKHIDO_QUERY_WORK(LAKHIDO_MOTIF_MOST)];
static int failed;

static int equal(lakhido_answer a, lakhido_answer b) {
    return a.refusal == b.refusal && a.side == b.side && a.place == b.place && a.value == b.value && a.searched == b.searched && a.arcs == b.arcs &&
           a.depth == b.depth;
}

static void is(int line, lakhido_answer a, lakhido_answer expected) {
    if (equal(a, expected)) return;
    failed = 1;
    printf("line %d: refusal %zu side %zu place %zu value %zu searched %zu arcs %zu depth %zu\n", line, a.refusal, a.side, a.place, a.value, a.searched,
           a.arcs, a.depth);
}

static int equal_windows(lakhido_window_answer a, lakhido_window_answer b) {
    return a.refusal == b.refusal && a.side == b.side && a.place == b.place && a.found == b.found && a.start == b.start && a.length == b.length &&
           a.arcs == b.arcs && a.depth == b.depth;
}

static void is_window(int line, lakhido_window_answer a, lakhido_window_answer expected) {
    if (equal_windows(a, expected)) return;
    failed = 1;
    printf("line %d: refusal %zu side %zu place %zu found %zu start %zu length %zu arcs %zu depth %zu\n", line, a.refusal, a.side, a.place, a.found, a.start,
           a.length, a.arcs, a.depth);
}

static int equal_batches(const lakhido_batch_answer *a, const lakhido_batch_answer *b) {
    return a->refusal == b->refusal && a->side == b->side && a->place == b->place && a->read == b->read &&
           !memcmp(a->counts, b->counts, sizeof a->counts) && !memcmp(a->searched, b->searched, sizeof a->searched);
}

static void is_batch(int line, lakhido_batch_answer a, lakhido_batch_answer expected) {
    if (equal_batches(&a, &expected)) return;
    failed = 1;
    printf("line %d: refusal %zu side %zu place %zu read %zu, counts and searched", line, a.refusal, a.side, a.place, a.read);
    for (int t = 0; t < LAKHIDO_MOTIFS_MOST; t++) printf(" %zu %zu", a.counts[t], a.searched[t]);
    puts("");
}

static void holds(int line, int fact) {
    if (fact) return;
    failed = 1;
    printf("line %d: not so\n", line);
}

/* An accepted call with a value and the number searched; one with a value and the molecule's arcs and depth; a refused one. Every other field is 0. */
#define ACCEPTED(call, v, s) is(__LINE__, call, (lakhido_answer){.refusal = LAKHIDO_ACCEPTED, .value = v, .searched = s})
#define FOLDED(call, v, a, d) is(__LINE__, call, (lakhido_answer){.refusal = LAKHIDO_ACCEPTED, .value = v, .arcs = a, .depth = d})
#define REFUSED(call, number, s, p) is(__LINE__, call, (lakhido_answer){.refusal = number, .side = s, .place = p})
#define HOLDS(fact) holds(__LINE__, fact)

/* A window found, none found, both with the molecule's arcs and depth; a refused call. Every other field is 0. */
#define FOUND(call, s, l, a, d) is_window(__LINE__, call, (lakhido_window_answer){.found = 1, .start = s, .length = l, .arcs = a, .depth = d})
#define NOWHERE(call, a, d) is_window(__LINE__, call, (lakhido_window_answer){.found = 0, .arcs = a, .depth = d})
#define NO_WINDOW(call, number, s, p) is_window(__LINE__, call, (lakhido_window_answer){.refusal = number, .side = s, .place = p})

/* An accepted batch with the number read, the counts and the searched numbers, each list in brackets; a refused one. Every other field is 0. */
#define LIST(...) {__VA_ARGS__}
#define BATCHED(call, r, c, s) is_batch(__LINE__, call, (lakhido_batch_answer){.read = r, .counts = LIST c, .searched = LIST s})
#define NO_BATCH(call, number, s, p) is_batch(__LINE__, call, (lakhido_batch_answer){.refusal = number, .side = s, .place = p})

#define WORK(m, n) work, LAKHIDO_WORK(m, n)
#define CATALOG catalog, sizeof catalog
#define CACHE cache, LAKHIDO_BLOCK
#define QUERY_WORK work, LAKHIDO_QUERY_WORK(2)
#define NOTHING_QUERIED lakhido_query(CATALOG, CACHE, NONE, NONE, work, LAKHIDO_QUERY_WORK(0), hits, 3)
#define THREE_ARCS BASES("GGCGCC"), MATES(5, 2, 1, 4, 3, 0)
#define MOTIFS(k) motifs, (k) * LAKHIDO_BLOCK

static void strands(void) {
    FOLDED(lakhido_check(BASES("GAC"), MATES(2, 1, 0)), 0, 1, 1);
    FOLDED(lakhido_check(BASES("GGCC"), MATES(3, 2, 1, 0)), 0, 2, 2);
    FOLDED(lakhido_check(BASES("GCGC"), MATES(1, 0, 3, 2)), 0, 2, 1);
    FOLDED(lakhido_check(BASES("GAC"), MATES(0, 1, 2)), 0, 0, 0);
    REFUSED(lakhido_check(BASES("AC"), MATES(0)), LAKHIDO_UNEQUAL_LENGTHS, LAKHIDO_MOLECULE, 0);
    REFUSED(lakhido_check(NONE, NONE), LAKHIDO_NO_BASES, LAKHIDO_MOLECULE, 0);
    REFUSED(lakhido_check(BASES("AXC"), MATES(0, 1, 2)), LAKHIDO_BAD_LETTER, LAKHIDO_MOLECULE, 1);
    FOLDED(lakhido_check(BASES("ACGTU"), MATES(0, 1, 2, 4, 3)), 0, 1, 1);
    REFUSED(lakhido_check(BASES("ATtU"), MATES(0, 1, 2, 3)), LAKHIDO_BAD_LETTER, LAKHIDO_MOLECULE, 2);
    REFUSED(lakhido_check(BASES("A"), MATES(1)), LAKHIDO_BAD_MATE, LAKHIDO_MOLECULE, 0);
    REFUSED(lakhido_check(BASES("AC"), MATES(1, 1)), LAKHIDO_MATES_NOT_MUTUAL, LAKHIDO_MOLECULE, 0);
    REFUSED(lakhido_check(BASES("ACGU"), MATES(2, 3, 0, 1)), LAKHIDO_ARCS_CROSS, LAKHIDO_MOLECULE, 1);
}

static void direct_calls(void) {
    FOLDED(lakhido_length(BASES("GC"), MATES(1, 0), BASES("GAC"), MATES(2, 1, 0), WORK(2, 3)), 2, 1, 1);
    FOLDED(lakhido_length(BASES("GC"), MATES(0, 1), BASES("GAC"), MATES(2, 1, 0), WORK(2, 3)), 1, 1, 1);
    FOLDED(lakhido_length(BASES("GC"), MATES(1, 0), BASES("GC"), MATES(0, 1), WORK(2, 2)), 0, 0, 0);
    FOLDED(lakhido_length(BASES("A"), MATES(0), BASES("A"), MATES(0), work, 136), 1, 0, 0);
    REFUSED(lakhido_length(BASES("A"), MATES(0), BASES("A"), MATES(0), work, 135), LAKHIDO_WORK_TOO_SHORT, LAKHIDO_NEITHER, 0);
    REFUSED(lakhido_length(BASES("AX"), MATES(0, 1), BASES("A"), MATES(0), NONE), LAKHIDO_BAD_LETTER, LAKHIDO_MOTIF, 1);

    memset(places, 255, sizeof places);
    FOLDED(lakhido_show(BASES("AGC"), MATES(0, 2, 1), BASES("AGAC"), MATES(0, 3, 2, 1), places, 4, WORK(3, 4)), 3, 1, 1);
    HOLDS(places[0] == 0 && places[1] == 1 && places[2] == 3 && places[3] == 65535);
    REFUSED(lakhido_show(BASES("GC"), MATES(1, 0), BASES("GAC"), MATES(2, 1, 0), places, 1, WORK(2, 3)), LAKHIDO_WRONG_SLICE, LAKHIDO_NEITHER, 0);

    FOLDED(lakhido_verify(BASES("GC"), MATES(1, 0), BASES("GAC"), MATES(2, 1, 0), MATES(0, 2)), 1, 1, 1);
    FOLDED(lakhido_verify(BASES("GC"), MATES(1, 0), BASES("GAC"), MATES(2, 1, 0), MATES(0, 3)), 0, 1, 1);
    REFUSED(lakhido_verify(BASES("GC"), MATES(1, 0), BASES("GAC"), MATES(2, 1, 0), MATES(0)), LAKHIDO_WRONG_SLICE, LAKHIDO_NEITHER, 0);
}

/* Of two windows of one length the first; a later one that is shorter; an end and a start inside an arc, whose one end in the window is then unbonded. */
static void windows(void) {
    FOUND(lakhido_window(BASES("GC"), MATES(1, 0), BASES("GAC"), MATES(2, 1, 0), WORK(2, 3)), 0, 3, 1, 1);
    FOUND(lakhido_window(BASES("GC"), MATES(1, 0), BASES("GACGAC"), MATES(2, 1, 0, 5, 4, 3), WORK(2, 6)), 0, 3, 2, 1);
    FOUND(lakhido_window(BASES("GC"), MATES(1, 0), BASES("GAACGAC"), MATES(3, 1, 2, 0, 6, 5, 4), WORK(2, 7)), 4, 3, 2, 1);
    FOUND(lakhido_window(BASES("GC"), MATES(1, 0), THREE_ARCS, WORK(2, 6)), 1, 2, 3, 2);
    FOUND(lakhido_window(BASES("GC"), MATES(0, 1), BASES("GCC"), MATES(2, 1, 0), WORK(2, 3)), 0, 2, 1, 1);
    FOUND(lakhido_window(BASES("GC"), MATES(0, 1), BASES("GGC"), MATES(2, 1, 0), WORK(2, 3)), 1, 2, 1, 1);
    FOUND(lakhido_window(BASES("GGC"), MATES(0, 1, 2), THREE_ARCS, WORK(3, 6)), 0, 5, 3, 2);
    FOUND(lakhido_window(BASES("A"), MATES(0), BASES("A"), MATES(0), work, 136), 0, 1, 0, 0);
    NOWHERE(lakhido_window(BASES("GC"), MATES(0, 1), BASES("GAC"), MATES(2, 1, 0), WORK(2, 3)), 1, 1);
    NOWHERE(lakhido_window(BASES("GC"), MATES(1, 0), BASES("GC"), MATES(0, 1), WORK(2, 2)), 0, 0);
    NOWHERE(lakhido_window(BASES("CG"), MATES(1, 0), THREE_ARCS, WORK(2, 6)), 3, 2);

    work[0] = 4711;
    NO_WINDOW(lakhido_window(BASES("A"), MATES(0), BASES("A"), MATES(0), work, 135), LAKHIDO_WORK_TOO_SHORT, LAKHIDO_NEITHER, 0);
    NO_WINDOW(lakhido_window(BASES("AX"), MATES(0, 1), NONE, NONE, WORK(2, 1)), LAKHIDO_BAD_LETTER, LAKHIDO_MOTIF, 1);
    NO_WINDOW(lakhido_window(BASES("A"), MATES(0), BASES("ACGU"), MATES(2, 3, 0, 1), NONE), LAKHIDO_ARCS_CROSS, LAKHIDO_MOLECULE, 1);
    HOLDS(work[0] == 4711);
}

/* The empty motif, lent as null pointers and as others. */
static void empty_motif(void) {
    FOLDED(lakhido_length(NONE, NONE, THREE_ARCS, WORK(0, 6)), 0, 3, 2);
    FOLDED(lakhido_length(BASES(""), places, 0, THREE_ARCS, WORK(0, 6)), 0, 3, 2);
    FOLDED(lakhido_length(NONE, NONE, BASES("A"), MATES(0), work, 72), 0, 0, 0);
    REFUSED(lakhido_length(NONE, NONE, BASES("A"), MATES(0), work, 71), LAKHIDO_WORK_TOO_SHORT, LAKHIDO_NEITHER, 0);
    REFUSED(lakhido_length(NONE, NONE, BASES("A"), MATES(0), NONE), LAKHIDO_WORK_TOO_SHORT, LAKHIDO_NEITHER, 0);
    REFUSED(lakhido_length(NONE, NONE, NONE, NONE, NONE), LAKHIDO_NO_BASES, LAKHIDO_MOLECULE, 0);
    REFUSED(lakhido_length(NONE, MATES(0), NONE, NONE, NONE), LAKHIDO_UNEQUAL_LENGTHS, LAKHIDO_MOTIF, 0);
    REFUSED(lakhido_length(BASES("A"), NONE, NONE, NONE, NONE), LAKHIDO_UNEQUAL_LENGTHS, LAKHIDO_MOTIF, 0);

    memset(places, 255, sizeof places);
    FOLDED(lakhido_show(NONE, NONE, THREE_ARCS, NONE, WORK(0, 6)), 0, 3, 2);
    FOLDED(lakhido_show(NONE, NONE, THREE_ARCS, places, 4, WORK(0, 6)), 0, 3, 2);
    HOLDS(places[0] == 65535 && places[1] == 65535 && places[2] == 65535 && places[3] == 65535);

    FOLDED(lakhido_verify(NONE, NONE, THREE_ARCS, NONE), 1, 3, 2);
    REFUSED(lakhido_verify(NONE, NONE, THREE_ARCS, MATES(0)), LAKHIDO_WRONG_SLICE, LAKHIDO_NEITHER, 0);

    FOUND(lakhido_window(NONE, NONE, THREE_ARCS, WORK(0, 6)), 0, 0, 3, 2);
    FOUND(lakhido_window(NONE, NONE, BASES("A"), MATES(0), work, 72), 0, 0, 0, 0);
    NO_WINDOW(lakhido_window(NONE, NONE, BASES("A"), MATES(0), work, 71), LAKHIDO_WORK_TOO_SHORT, LAKHIDO_NEITHER, 0);
}

/* Three arcs have depth 2 here; the motifs have one arc, or none. */
static void arcs_and_depth_of_the_molecule_not_of_the_motif(void) {
    FOLDED(lakhido_check(THREE_ARCS), 0, 3, 2);
    FOLDED(lakhido_length(BASES("GC"), MATES(1, 0), THREE_ARCS, WORK(2, 6)), 2, 3, 2);
    FOLDED(lakhido_show(BASES("GC"), MATES(1, 0), THREE_ARCS, places, 4, WORK(2, 6)), 2, 3, 2);
    FOLDED(lakhido_verify(BASES("GC"), MATES(1, 0), THREE_ARCS, MATES(0, 5)), 1, 3, 2);
    FOLDED(lakhido_verify(BASES("GC"), MATES(1, 0), THREE_ARCS, MATES(0, 4)), 0, 3, 2);
    FOLDED(lakhido_verify(BASES("GC"), MATES(0, 1), THREE_ARCS, MATES(0, 4)), 1, 3, 2);
    FOLDED(lakhido_verify(THREE_ARCS, BASES("GC"), MATES(1, 0), MATES(0, 1, 2, 3, 4, 5)), 0, 1, 1);
    FOLDED(lakhido_add(CATALOG, CACHE, 0, THREE_ARCS), 0, 3, 2);
    ACCEPTED(lakhido_remove(CATALOG, CACHE, 0), 0, 0);
}

/* Document 01's story of two molecules and one slot. */
static void story(void) {
    REFUSED(lakhido_remove(CATALOG, CACHE, 0), LAKHIDO_NOT_HELD, LAKHIDO_NEITHER, 0);
    FOLDED(lakhido_add(CATALOG, CACHE, 0, BASES("GAC"), MATES(2, 1, 0)), 0, 1, 1);
    FOLDED(lakhido_add(CATALOG, CACHE, 1, BASES("GGC"), MATES(2, 1, 0)), 0, 1, 1);
    REFUSED(lakhido_add(CATALOG, CACHE, 0, BASES("GAC"), MATES(2, 1, 0)), LAKHIDO_ALREADY_HELD, LAKHIDO_NEITHER, 0);
    REFUSED(lakhido_add(CATALOG, CACHE, 2, BASES("GAC"), MATES(2, 1, 0)), LAKHIDO_NUMBER_TOO_LARGE, LAKHIDO_NEITHER, 0);
    hits[2] = 7;
    ACCEPTED(lakhido_query(CATALOG, CACHE, BASES("GC"), MATES(1, 0), QUERY_WORK, hits, 3), 2, 2);
    HOLDS(hits[0] == 0 && hits[1] == 1 && hits[2] == 7);
    ACCEPTED(lakhido_query(CATALOG, CACHE, BASES("GC"), MATES(1, 0), QUERY_WORK, hits, 3), 2, 0);
    ACCEPTED(lakhido_query(CATALOG, CACHE, BASES("GC"), MATES(0, 1), QUERY_WORK, hits, 3), 1, 2);
    HOLDS(hits[0] == 1);
    ACCEPTED(lakhido_query(CATALOG, CACHE, BASES("GC"), MATES(1, 0), QUERY_WORK, hits, 3), 2, 2);
    ACCEPTED(lakhido_remove(CATALOG, CACHE, 0), 0, 0);
    ACCEPTED(lakhido_query(CATALOG, CACHE, BASES("GC"), MATES(1, 0), QUERY_WORK, hits, 3), 1, 0);
    HOLDS(hits[0] == 1);
}

/* Two molecules, one slot and the empty motif; its entry is byte 0, the two maps and the checksum, 2 + 381 * 3 + 445 * 3. */
static void story_of_the_empty_motif(void) {
    FOLDED(lakhido_add(CATALOG, CACHE, 0, BASES("GAC"), MATES(2, 1, 0)), 0, 1, 1);
    ACCEPTED(NOTHING_QUERIED, 2, 2);
    HOLDS(hits[0] == 0 && hits[1] == 1 && hits[2] == 7);
    HOLDS(cache[0] == 2 && cache[1] == 0 && cache[380] == 3 && cache[444] == 3 && cache[508] == 176 && cache[509] == 9);
    ACCEPTED(NOTHING_QUERIED, 2, 0);
    cache[0] = 0;
    ACCEPTED(NOTHING_QUERIED, 2, 2);
    ACCEPTED(lakhido_remove(CATALOG, CACHE, 0), 0, 0);
    ACCEPTED(NOTHING_QUERIED, 1, 0);
    HOLDS(hits[0] == 1);
    REFUSED(lakhido_add(CATALOG, CACHE, 0, NONE, NONE), LAKHIDO_NO_BASES, LAKHIDO_MOLECULE, 0);
}

/* Byte 0 = 9 is no kind of block; a block of a molecule with no bases is unsound. */
static void refused_buffers(void) {
    REFUSED(lakhido_query(CATALOG, cache, LAKHIDO_BLOCK + 1, BASES("GC"), MATES(1, 0), QUERY_WORK, hits, 3), LAKHIDO_NOT_WHOLE_BLOCKS, LAKHIDO_NEITHER, 0);
    REFUSED(lakhido_query(NONE, CACHE, BASES("GC"), MATES(1, 0), QUERY_WORK, hits, 3), LAKHIDO_NOT_WHOLE_BLOCKS, LAKHIDO_NEITHER, 0);
    catalog[LAKHIDO_BLOCK] = 9;
    REFUSED(lakhido_remove(CATALOG, CACHE, 1), LAKHIDO_UNSOUND_BLOCK, LAKHIDO_NEITHER, 1);
    HOLDS(catalog[LAKHIDO_BLOCK] == 9);
    catalog[0] = catalog[508] = 1;
    REFUSED(NOTHING_QUERIED, LAKHIDO_UNSOUND_BLOCK, LAKHIDO_NEITHER, 0);
}

/* Writes motif t to its block, as docs/FORMAT.md says. */
static void put_motif(int t, const uint8_t *bases, size_t bases_length, const uint16_t *mates, size_t mates_length) {
    uint8_t *block = motifs + t * LAKHIDO_BLOCK;
    uint32_t sum = 0;
    memset(block, 0, LAKHIDO_BLOCK);
    block[0] = 1;
    block[1] = bases_length;
    for (size_t i = 0; i < bases_length; i++) block[28 + i] = bases[i];
    for (size_t i = 0; i < mates_length; i++) {
        block[188 + 2 * i] = mates[i] % 256;
        block[189 + 2 * i] = mates[i] / 256;
    }
    for (uint32_t i = 0; i < 508; i++) sum += (i + 1) * block[i];
    for (int i = 0; i < 4; i++) block[508 + i] = sum >> 8 * i;
}

/* Puts a motif of n unbonded bases to block t. */
static void put_long_motif(int t, size_t n) {
    uint8_t bases[LAKHIDO_MOLECULE_MOST];
    uint16_t mates[LAKHIDO_MOLECULE_MOST];
    for (size_t i = 0; i < n; i++) {
        bases[i] = 'A';
        mates[i] = i;
    }
    put_motif(t, bases, n, mates, n);
}

static void two_molecules(void) {
    memset(catalog, 0, sizeof catalog);
    memset(cache, 0, sizeof cache);
    FOLDED(lakhido_add(CATALOG, CACHE, 0, BASES("GAC"), MATES(2, 1, 0)), 0, 1, 1);
    FOLDED(lakhido_add(CATALOG, CACHE, 1, BASES("GGC"), MATES(2, 1, 0)), 0, 1, 1);
    memset(lists, 255, sizeof lists);
}

/* Document 01's story as a batch: the same motif again, another one in the only slot, the first again. Then the last motif alone, which the cache knows; with
 * it the empty motif, which takes the slot; after a removal the empty motif alone; and both once more, of which each finds the other in the slot. */
static void batches(void) {
    static const uint16_t written[] = {0, 1, 0, 1, 1, 65535, 0, 1, 65535};
    two_molecules();
    put_motif(0, BASES("GC"), MATES(1, 0));
    put_motif(1, BASES("GC"), MATES(1, 0));
    put_motif(2, BASES("GC"), MATES(0, 1));
    put_motif(3, BASES("GC"), MATES(1, 0));
    BATCHED(lakhido_batch(CATALOG, CACHE, MOTIFS(4), QUERY_WORK, lists, 9), 2, (2, 2, 1, 2), (2, 0, 2, 2));
    HOLDS(!memcmp(lists, written, sizeof written));
    BATCHED(lakhido_batch(CATALOG, CACHE, MOTIFS(1), QUERY_WORK, lists, 2), 0, (2), (0));
    ACCEPTED(lakhido_query(CATALOG, CACHE, BASES("GC"), MATES(1, 0), QUERY_WORK, hits, 3), 2, 0);
    put_motif(1, NONE, NONE);
    HOLDS(motifs[LAKHIDO_BLOCK] == 1 && motifs[LAKHIDO_BLOCK + 508] == 1);
    BATCHED(lakhido_batch(CATALOG, CACHE, MOTIFS(2), QUERY_WORK, lists, 4), 2, (2, 2), (0, 2));
    ACCEPTED(lakhido_remove(CATALOG, CACHE, 1), 0, 0);
    BATCHED(lakhido_batch(CATALOG, CACHE, motifs + LAKHIDO_BLOCK, LAKHIDO_BLOCK, work, LAKHIDO_QUERY_WORK(0), lists, 2), 0, (1), (0));
    BATCHED(lakhido_batch(CATALOG, CACHE, MOTIFS(2), QUERY_WORK, lists, 4), 1, (1, 1), (1, 1));
}

/* Sixteen motifs that the one slot holds one after the other. */
static void most_motifs(void) {
    two_molecules();
    for (int t = 0; t < LAKHIDO_MOTIFS_MOST; t++) put_motif(t, BASES("GC"), MATES(1, 0));
    put_motif(8, BASES("A"), MATES(0));
    BATCHED(lakhido_batch(CATALOG, CACHE, MOTIFS(LAKHIDO_MOTIFS_MOST), QUERY_WORK, lists, 2 * LAKHIDO_MOTIFS_MOST), 2,
            (2, 2, 2, 2, 2, 2, 2, 2, 1, 2, 2, 2, 2, 2, 2, 2), (2, 0, 0, 0, 0, 0, 0, 0, 2, 2, 0, 0, 0, 0, 0, 0));
    HOLDS(lists[15] == 1 && lists[16] == 0 && lists[17] == 65535 && lists[18] == 0 && lists[31] == 1 && lists[32] == 65535);
}

/* The order 10, 11, 15, 3, 9, 8, from the last row to the first; nothing is written, and an unsound block of the cache stays. */
static void refused_batches(void) {
    static uint8_t before[sizeof cache];
    two_molecules();
    put_motif(0, BASES("GC"), MATES(1, 0));
    put_long_motif(1, 120);
    put_long_motif(2, 121);
    put_long_motif(3, 160);
    cache[7] = 7;
    memcpy(before, cache, sizeof cache);
    NO_BATCH(lakhido_batch(CATALOG, CACHE, MOTIFS(2), work, LAKHIDO_QUERY_WORK(120) - 1, lists, 4), LAKHIDO_WORK_TOO_SHORT, LAKHIDO_NEITHER, 0);
    NO_BATCH(lakhido_batch(CATALOG, CACHE, MOTIFS(2), NONE, lists, 4), LAKHIDO_WORK_TOO_SHORT, LAKHIDO_NEITHER, 0);
    NO_BATCH(lakhido_batch(CATALOG, CACHE, MOTIFS(2), NONE, lists, 3), LAKHIDO_WRONG_SLICE, LAKHIDO_NEITHER, 0);
    NO_BATCH(lakhido_batch(CATALOG, CACHE, MOTIFS(4), NONE, NONE), LAKHIDO_TOO_LONG, LAKHIDO_MOTIF, 2);
    NO_BATCH(lakhido_batch(CATALOG, CACHE, motifs + 3 * LAKHIDO_BLOCK, LAKHIDO_BLOCK, NONE, NONE), LAKHIDO_TOO_LONG, LAKHIDO_MOTIF, 0);
    memset(motifs + 4 * LAKHIDO_BLOCK, 0, LAKHIDO_BLOCK);
    NO_BATCH(lakhido_batch(CATALOG, CACHE, MOTIFS(5), NONE, NONE), LAKHIDO_BAD_MOTIFS, LAKHIDO_MOTIF, 4);
    motifs[LAKHIDO_BLOCK + 28] = 'X';
    NO_BATCH(lakhido_batch(CATALOG, CACHE, MOTIFS(5), NONE, NONE), LAKHIDO_BAD_MOTIFS, LAKHIDO_MOTIF, 1);
    NO_BATCH(lakhido_batch(CATALOG, CACHE, motifs, 2 * LAKHIDO_BLOCK - 1, NONE, NONE), LAKHIDO_BAD_MOTIFS, LAKHIDO_MOTIF, 0);
    NO_BATCH(lakhido_batch(CATALOG, CACHE, MOTIFS(LAKHIDO_MOTIFS_MOST + 1), NONE, NONE), LAKHIDO_BAD_MOTIFS, LAKHIDO_MOTIF, 0);
    NO_BATCH(lakhido_batch(CATALOG, CACHE, NONE, NONE, NONE), LAKHIDO_BAD_MOTIFS, LAKHIDO_MOTIF, 0);
    catalog[LAKHIDO_BLOCK + 2] = 1;
    NO_BATCH(lakhido_batch(CATALOG, CACHE, NONE, NONE, NONE), LAKHIDO_UNSOUND_BLOCK, LAKHIDO_NEITHER, 1);
    NO_BATCH(lakhido_batch(CATALOG, cache, LAKHIDO_BLOCK + 1, NONE, NONE, NONE), LAKHIDO_NOT_WHOLE_BLOCKS, LAKHIDO_NEITHER, 0);
    NO_BATCH(lakhido_batch(NONE, NONE, NONE, NONE, NONE), LAKHIDO_NOT_WHOLE_BLOCKS, LAKHIDO_NEITHER, 0);
    HOLDS(!memcmp(cache, before, sizeof cache) && lists[0] == 65535 && lists[3] == 65535);
}

/* T and U match each other and no other letter; blocks keep the letter; two spellings of a motif are two entries, which take the one slot from each other. */
static void t_and_u(void) {
    FOLDED(lakhido_length(BASES("GT"), MATES(1, 0), BASES("GAU"), MATES(2, 1, 0), WORK(2, 3)), 2, 1, 1);
    FOLDED(lakhido_length(BASES("T"), MATES(0), BASES("U"), MATES(0), WORK(1, 1)), 1, 0, 0);
    FOLDED(lakhido_length(BASES("U"), MATES(0), BASES("T"), MATES(0), WORK(1, 1)), 1, 0, 0);
    FOLDED(lakhido_length(BASES("T"), MATES(0), BASES("T"), MATES(0), WORK(1, 1)), 1, 0, 0);
    FOLDED(lakhido_length(BASES("T"), MATES(0), BASES("ACG"), MATES(0, 1, 2), WORK(1, 3)), 0, 0, 0);
    FOLDED(lakhido_show(BASES("GU"), MATES(1, 0), BASES("GAT"), MATES(2, 1, 0), places, 2, WORK(2, 3)), 2, 1, 1);
    HOLDS(places[0] == 0 && places[1] == 2);
    FOLDED(lakhido_verify(BASES("GU"), MATES(1, 0), BASES("GAT"), MATES(2, 1, 0), MATES(0, 2)), 1, 1, 1);
    FOLDED(lakhido_verify(BASES("GU"), MATES(1, 0), BASES("GAC"), MATES(2, 1, 0), MATES(0, 2)), 0, 1, 1);
    FOUND(lakhido_window(BASES("UA"), MATES(0, 1), BASES("UCTA"), MATES(0, 1, 2, 3), WORK(2, 4)), 2, 2, 0, 0);
    REFUSED(lakhido_length(BASES("t"), MATES(0), BASES("T"), MATES(0), WORK(1, 1)), LAKHIDO_BAD_LETTER, LAKHIDO_MOTIF, 0);

    memset(catalog, 0, sizeof catalog);
    memset(cache, 0, sizeof cache);
    FOLDED(lakhido_add(CATALOG, CACHE, 0, BASES("GAT"), MATES(2, 1, 0)), 0, 1, 1);
    FOLDED(lakhido_add(CATALOG, CACHE, 1, BASES("GAU"), MATES(2, 1, 0)), 0, 1, 1);
    HOLDS(catalog[30] == 'T' && catalog[LAKHIDO_BLOCK + 30] == 'U');
    ACCEPTED(lakhido_query(CATALOG, CACHE, BASES("GT"), MATES(1, 0), QUERY_WORK, hits, 3), 2, 2);
    HOLDS(hits[0] == 0 && hits[1] == 1 && cache[21] == 'T');
    ACCEPTED(lakhido_query(CATALOG, CACHE, BASES("GT"), MATES(1, 0), QUERY_WORK, hits, 3), 2, 0);
    ACCEPTED(lakhido_query(CATALOG, CACHE, BASES("GU"), MATES(1, 0), QUERY_WORK, hits, 3), 2, 2);
    HOLDS(cache[21] == 'U');
    put_motif(0, BASES("GU"), MATES(1, 0));
    put_motif(1, BASES("GT"), MATES(1, 0));
    BATCHED(lakhido_batch(CATALOG, CACHE, MOTIFS(2), QUERY_WORK, lists, 4), 2, (2, 2), (0, 2));
}

int main(void) {
    strands();
    direct_calls();
    windows();
    empty_motif();
    arcs_and_depth_of_the_molecule_not_of_the_motif();
    story();
    story_of_the_empty_motif();
    refused_buffers();
    batches();
    most_motifs();
    refused_batches();
    t_and_u();
    if (!failed) puts("ok");
    return failed;
}
