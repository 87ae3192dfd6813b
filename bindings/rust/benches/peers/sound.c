// The check of a strand and its fold, and two versions of the soundness pass in plain C, by the rules of document 01 and the requests (i) and (iii) to
// (vi) of 02.
#include "peer.h"

enum { BLOCK = 512, CHECKSUM = 508, SEARCHED = 380, HITS = 444, MAP = 64, BLOCK_BASES = 160 };

// A kind of block: its mark in byte 0, where its bases lie, the least of them, and for how many there is room. The mates follow that room.
typedef struct {
    int mark, start, least, most;
} kind;

static const kind MOLECULE = {1, 28, PEER_LEAST_MOLECULE, BLOCK_BASES}, MOTIF = {1, 28, PEER_LEAST_MOTIF, BLOCK_BASES}, ENTRY = {2, 20, PEER_LEAST_MOTIF, 120};

// 1 where a byte is a letter, else 0. A sum, of which clang and gcc both make vector code; A and C are told by one comparison, and so are T and U.
static uint8_t is_letter(uint8_t b) { return (b == 'A' || b == 'C') + (b == 'G') + (b == 'T' || b == 'U'); }

// Of 8 and of 16 bits and no more, so that the vectors hold many.
static uint8_t smaller(uint8_t a, uint8_t b) { return a < b ? a : b; }
static uint8_t larger_byte(uint8_t a, uint8_t b) { return a < b ? b : a; }
static uint16_t larger(uint16_t a, uint16_t b) { return a < b ? b : a; }

// All bases are tested together, without a branch. No peer tells which of them is no letter.
static int all_letters(const uint8_t *bases, size_t n) {
    uint8_t least = 1;
    for (size_t i = 0; i < n; i++) least = smaller(least, is_letter(bases[i]));
    return least;
}

// All mates are tested together, by the largest.
static int all_inside(const uint16_t *mates, int n) {
    uint16_t largest = 0;
    for (int i = 0; i < n; i++) largest = larger(largest, mates[i]);
    return !n || largest < n;
}

// In range, mutual and nested, in linear time: the walk of each arc's inside jumps over the arcs in it.
static int is_nested(const uint16_t *mates, int n) {
    if (!all_inside(mates, n)) return 0;
    for (int i = 0; i < n; i++)
        if (mates[mates[i]] != i) return 0;
    for (int i = n - 1; 0 <= i; i--)
        for (int k = i + 1, end = mates[i]; k < end; k = mates[k] + 1)
            if (mates[k] < k || end <= mates[k]) return 0;
    return 1;
}

int peer_strand_ok(const uint8_t *bases, const uint16_t *mates, size_t n, size_t least) {
    return least <= n && all_letters(bases, n) && is_nested(mates, n);
}

// Each arc is counted at its left end, several bases at a time.
static uint16_t begins(uint16_t i, uint16_t mate) { return i < mate; }

static size_t arc_count(const uint16_t *mates, size_t n) {
    uint16_t arcs = 0;
    for (size_t i = 0; i < n; i++) arcs = arcs + begins(i, mates[i]);
    return arcs;
}

// One walk without branches, where there are arcs: an arc is open from its left end to its right one, and the depth is the most that are open at once.
peer_fold peer_fold_of(const uint16_t *mates, size_t n) {
    size_t arcs = arc_count(mates, n), level = 0, depth = 0;
    if (!arcs) return (peer_fold){0, 0};
    for (size_t i = 0; i < n; i++) {
        size_t j = mates[i];
        level += (i < j) - (j < i);
        depth = depth < level ? level : depth;
    }
    return (peer_fold){arcs, depth};
}

static void read_mates(const uint8_t *s, int n, uint16_t *mates) {
    for (int i = 0; i < n; i++) mates[i] = s[2 * i] | s[2 * i + 1] << 8;
}

static uint32_t stored_checksum(const uint8_t *s) { return s[CHECKSUM] | s[CHECKSUM + 1] << 8 | s[CHECKSUM + 2] << 16 | (uint32_t)s[CHECKSUM + 3] << 24; }

// A soundness pass by this test of a block.
static size_t lowest_unsound(int (*sound)(const uint8_t *), const uint8_t *buffer, size_t blocks) {
    size_t d = 0;
    while (d < blocks && sound(buffer + BLOCK * d)) d++;
    return d;
}

// The soundness test in one walk, which gathers the sum, in the library's stretches.

// Whether the bytes of a stretch are right, and the sum over it and all before it.
typedef struct {
    int ok;
    uint32_t sum;
} pass;

// By the largest byte. Zeros add nothing to the sum.
static int all_zero(const uint8_t *s, int from, int to) {
    uint8_t largest = 0;
    for (int i = from; i < to; i++) largest = larger_byte(largest, s[i]);
    return !largest;
}

// No weight is above 508: the remainder tells that, so that the vectors have products of 16 bits.
static uint32_t weighed(uint16_t weight, uint8_t b) { return (uint32_t)(weight % 512) * b; }

static pass letters(const uint8_t *s, int from, int to, uint32_t sum) {
    uint8_t least = 1;
    for (int i = from; i < to; i++) {
        least = smaller(least, is_letter(s[i]));
        sum += weighed(i + 1, s[i]);
    }
    return (pass){least, sum};
}

// The mates that lie from `at`, by the largest. Only low bytes are weighed: where the mates are in range, the high ones are zero.
static pass mates_inside(const uint16_t *mates, int n, int at, uint32_t sum) {
    uint16_t largest = 0, weight = at + 1;
    for (int i = 0; i < n; i++) {
        largest = larger(largest, mates[i]);
        sum += weighed(weight, mates[i] % 256);
        weight += 2;
    }
    return (pass){!n || largest < n, sum};
}

// Whether each hit bit has its searched bit.
static pass maps(const uint8_t *s, uint32_t sum) {
    uint8_t worst = 0;
    for (int i = 0; i < MAP; i++) {
        uint8_t searched = s[SEARCHED + i], hit = s[HITS + i];
        worst = larger_byte(worst, hit & ~searched);
        sum += weighed(SEARCHED + i + 1, searched) + weighed(HITS + i + 1, hit);
    }
    return (pass){!worst, sum};
}

// From byte 0 to the end of the room for mates, which are read.
static pass content(const uint8_t *s, const kind *k, uint16_t *mates) {
    const pass unsound = {0, 0};
    int n = s[1], start = k->start, at = start + k->most;
    if (s[0] != k->mark || n < k->least || k->most < n || !all_zero(s, 2, start)) return unsound;
    pass p = letters(s, start, start + n, weighed(1, s[0]) + weighed(2, s[1]));
    if (!p.ok || !all_zero(s, start + n, at)) return unsound;
    read_mates(s + at, n, mates);
    p = mates_inside(mates, n, at, p.sum);
    if (!p.ok || !all_zero(s, at + 2 * n, at + 2 * k->most)) return unsound;
    return p;
}

static uint16_t differs(uint16_t a, uint16_t b) { return a != b; }

static int no_arcs(const uint16_t *mates, int n) {
    uint16_t bonded = 0;
    for (int i = 0; i < n; i++) bonded += differs(mates[i], i);
    return !bonded;
}

// The room for a level in a name.
enum { LEVELS = 65536 };

// Mutual and nested, of mates in range, without branches: the name of a base is the sum of its place and its mate's, with the number of arcs that are open
// there. Each base tells its name to its mate. All are told their own exactly where the mates are mutual and nested.
static int same_names(const uint16_t *mates, uint32_t n) {
    uint32_t own[BLOCK_BASES], told[BLOCK_BASES] = {0}, next = n, differing = 0;
    for (uint32_t i = 0; i < n; i++) {
        uint32_t j = mates[i];
        next -= j < i;
        own[i] = told[j] = LEVELS * j + next;
        next += LEVELS + (i < j);
    }
    for (uint32_t i = 0; i < n; i++) differing += own[i] != told[i];
    return !differing;
}

static int ends_sound(const uint8_t *s, pass p, const uint16_t *mates) {
    return p.ok && p.sum == stored_checksum(s) && (no_arcs(mates, s[1]) || same_names(mates, s[1]));
}

static int walk_molecule(const uint8_t *s) {
    uint16_t mates[BLOCK_BASES];
    if (!s[0]) return all_zero(s, 0, BLOCK);
    return ends_sound(s, content(s, &MOLECULE, mates), mates);
}

// An empty block holds no motif, and has no mark.
static int walk_motif(const uint8_t *s) {
    uint16_t mates[BLOCK_BASES];
    return ends_sound(s, content(s, &MOTIF, mates), mates);
}

static int walk_entry(const uint8_t *s) {
    uint16_t mates[BLOCK_BASES];
    if (!s[0]) return all_zero(s, 0, BLOCK);
    pass p = content(s, &ENTRY, mates);
    return p.ok && ends_sound(s, maps(s, p.sum), mates);
}

size_t walk_unsound_molecule(const uint8_t *catalog, size_t blocks) { return lowest_unsound(walk_molecule, catalog, blocks); }
size_t walk_unsound_entry(const uint8_t *cache, size_t blocks) { return lowest_unsound(walk_entry, cache, blocks); }
size_t walk_no_motif(const uint8_t *motifs, size_t blocks) { return lowest_unsound(walk_motif, motifs, blocks); }

// The soundness test with the sum apart: zeros are left at the first other byte, the strand is checked as one handed in, and the checksum is a walk of its
// own.

static int zeros(const uint8_t *s, int from, int to) {
    for (int i = from; i < to; i++)
        if (s[i]) return 0;
    return 1;
}

static uint32_t checksum(const uint8_t *s) {
    uint32_t sum = 0;
    for (int i = 0; i < CHECKSUM; i++) sum += (i + 1) * s[i];
    return sum;
}

static int apart_content(const uint8_t *s, const kind *k) {
    uint16_t mates[BLOCK_BASES];
    int n = s[1], start = k->start, at = start + k->most;
    if (s[0] != k->mark || k->most < n) return 0;
    if (!zeros(s, 2, start) || !zeros(s, start + n, at) || !zeros(s, at + 2 * n, at + 2 * k->most)) return 0;
    read_mates(s + at, n, mates);
    return peer_strand_ok(s + start, mates, n, k->least) && checksum(s) == stored_checksum(s);
}

static int apart_molecule(const uint8_t *s) { return zeros(s, 0, BLOCK) || apart_content(s, &MOLECULE); }

static int apart_entry(const uint8_t *s) {
    if (zeros(s, 0, BLOCK)) return 1;
    for (int i = 0; i < MAP; i++)
        if (s[HITS + i] & ~s[SEARCHED + i]) return 0;
    return apart_content(s, &ENTRY);
}

size_t apart_unsound_molecule(const uint8_t *catalog, size_t blocks) { return lowest_unsound(apart_molecule, catalog, blocks); }
size_t apart_unsound_entry(const uint8_t *cache, size_t blocks) { return lowest_unsound(apart_entry, cache, blocks); }

void peer_put_checksum(uint8_t *s) {
    uint32_t sum = checksum(s);
    for (int i = 0; i < 4; i++) s[CHECKSUM + i] = sum >> 8 * i;
}
