// The library's algorithm in plain C (crates/rows, crates/arcs and crates/walk): tables of the motif (the classes of its letters and of those of their
// mates, and for each class the row of an unbonded base), made at the first arc, or once for a query or a tightest window; one accumulator for an arc, rows
// for the starts that a greedy match of letters can have come to, the heavy child first, arcs closed in passes, and the top of the molecule, or of a window
// of it, walked from left to right. At the top an arc with no arc inside takes no row. A walk that asks for the whole motif stops where it cannot succeed.
// The call length checks both strands first and counts the molecule's fold (sound.c), as the library's does.
#include "peer.h"

// The rows are for the starts from `from` on in a segment of the motif that ends at `to`, as the library's are, which show has for other segments too. A row
// of LONG and more entries is closed in passes.
enum { LONG = 40 };
typedef struct {
    const uint8_t *q;
    const uint16_t *pm, *qm, *classes, *steps, *bounds;
    int m, from, to;
} Pair;

static uint16_t larger(uint16_t a, uint16_t b) { return a < b ? b : a; }
static uint16_t smaller(uint16_t a, uint16_t b) { return a < b ? a : b; }

// The bodies of the vector loops are functions of values: the compiler may then load every value in each turn. k is the mate of j, c the class of j, t the
// classes of j and of k; x, y and b are classes too; `here` and `next` are the row's entries for j and j + 1.
static uint16_t extend_entry(uint16_t step, uint16_t j, uint16_t here, uint16_t next) { return step == j ? here : next; }
static uint16_t unit_entry(uint8_t c, uint8_t b, uint16_t k, uint16_t j) { return k <= j && c == b ? j + 1 : j; }
static uint16_t over_entry(uint16_t t, uint16_t x, uint16_t k, uint16_t j, uint16_t to, uint16_t y, uint16_t next) {
    if ((t & 255) != x) return 0;
    if (k <= j) return next;
    return k < to && t >> 8 == y && k <= next ? k + 1 : 0;
}

// The steps of the letter y: for each k where an unbonded base y takes the motif from k on. T and U have one row.
static const uint16_t *steps_of(const Pair *s, uint8_t y) { return s->steps + (y >> 1 & 3) * (s->m + 1); }

// The end of the starts of a stretch that begins at base i: the entry for m is m in every row and is not written again.
static int starts_end(const Pair *s, int i) { return s->bounds[i] < s->m ? s->bounds[i] + 1 : s->m; }

// The row of an empty stretch at base i.
static void identity(const Pair *s, uint16_t *row, int i) {
    for (int j = s->from, last = s->bounds[i]; j <= last; j++) row[j] = j;
}

// The row of the unbonded base i.
static void single(const Pair *s, uint16_t *row, int i) {
    const uint16_t *steps = steps_of(s, s->q[i]);
    for (int j = s->from, last = s->bounds[i]; j <= last; j++) row[j] = steps[j];
}

// Puts the unbonded base i in front of the row's stretch.
static void extend(const Pair *s, uint16_t *row, int i) {
    const uint16_t *steps = steps_of(s, s->q[i]);
    for (int j = s->from, end = starts_end(s, i); j < end; j++) row[j] = extend_entry(steps[j], j, row[j], row[j + 1]);
}

// Puts the stretch of the row `front`, which begins at base i, in front.
static void combine(const Pair *s, uint16_t *row, const uint16_t *front, int i) {
    for (int j = s->from, last = s->bounds[i]; j <= last; j++) row[j] = row[front[j]];
}

// Puts the stretch of the row `back` behind the row's, which begins at base i.
static void combine_into(const Pair *s, uint16_t *row, const uint16_t *back, int i) {
    for (int j = s->from, last = s->bounds[i]; j <= last; j++) row[j] = back[row[j]];
}

// The entry for j of an arc with letters of the classes x, y, from its inner row's entries for j and j + 1.
static uint16_t arc_entry(const Pair *s, const uint16_t *steps, int j, uint8_t x, uint8_t y, uint16_t here, uint16_t next) {
    uint16_t best = smaller(steps[here], s->to), t = s->classes[j];
    if ((t & 255) != x) return best;
    int k = s->pm[j];
    if (k <= j) return larger(best, next);
    if (s->to <= k || t >> 8 != y || next < k) return best;
    return larger(best, k + 1);
}

// The row of the arc l, r, in the place of its inner row; the next row is written too.
static void close_arc(const Pair *s, uint16_t *row, int l, int r) {
    uint8_t x = peer_class(s->q[l]), y = peer_class(s->q[r]);
    const uint16_t *steps = steps_of(s, y);
    int from = s->from, to = s->to, end = starts_end(s, l);
    if (end < from + LONG) {
        for (int j = from; j < end; j++) row[j] = arc_entry(s, steps, j, x, y, row[j], row[j + 1]);
        return;
    }
    const uint16_t *pm = s->pm, *classes = s->classes;
    uint16_t *over = row + s->m + 1;
    for (int j = from; j < end; j++) over[j] = over_entry(classes[j], x, pm[j], j, to, y, row[j + 1]);
    for (int j = from; j < end; j++) row[j] = steps[row[j]];
    for (int j = from; j < end; j++) row[j] = larger(smaller(row[j], to), over[j]);
}

static void inner_row(const Pair *s, int l, int r, uint16_t *work);

// Puts lo..hi, which no arc leaves, in front of the stretch whose row is the first of work.
static void prepend(const Pair *s, int lo, int hi, uint16_t *work) {
    uint16_t *part = work + s->m + 1;
    for (int i = hi; lo < i;) {
        int k = i - 1, c = s->qm[k];
        if (c == k) {
            extend(s, work, k);
        } else {
            inner_row(s, c, k, part);
            close_arc(s, part, c, k);
            combine(s, work, part, c);
        }
        i = c;
    }
}

// Leaves the row of lo..hi, which has no arc, as the first row of work.
static void flat_row(const Pair *s, int lo, int hi, uint16_t *work) {
    if (hi <= lo) {
        identity(s, work, lo);
        return;
    }
    single(s, work, hi - 1);
    for (int i = hi - 1; lo < i; i--) extend(s, work, i - 1);
}

// Leaves the row of lo..hi, which is not empty and no arc leaves, as the first row of work.
static void stretch_row(const Pair *s, int lo, int hi, uint16_t *work) {
    int r = hi - 1, l = s->qm[r];
    if (l == r) {
        single(s, work, r);
    } else {
        inner_row(s, l, r, work);
        close_arc(s, work, l, r);
    }
    if (lo < l) prepend(s, lo, l, work);
}

// Leaves the row of l + 1..r, inside the arc l, r, as the first row of work.
static void inner_row(const Pair *s, int l, int r, uint16_t *work) {
    int heavy = peer_heaviest(s->qm, l + 1, r);
    if (r <= heavy) {
        flat_row(s, l + 1, r, work);
        return;
    }
    int e = s->qm[heavy];
    inner_row(s, heavy, e, work);
    close_arc(s, work, heavy, e);
    if (e + 1 < r) {
        uint16_t *part = work + s->m + 1;
        stretch_row(s, e + 1, r, part);
        combine_into(s, work, part, heavy);
    }
    if (l + 1 < heavy) prepend(s, l + 1, heavy, work);
}

void peer_prepare(peer_motif *t) {
    const uint8_t *p = t->p;
    const uint16_t *pm = t->pm;
    for (int j = 0; j < t->m; j++) t->classes[j] = peer_class(p[j]);
    for (int j = 0; j < t->m; j++) t->classes[j] += (t->classes[pm[j]] & 255) * 256;
    for (int c = 0; c < 4; c++) {
        uint8_t y = "ACUG"[c];
        uint16_t *row = t->steps + c * (t->m + 1);
        for (int j = 0; j < t->m; j++) row[j] = unit_entry(peer_class(p[j]), y, pm[j], j);
        row[t->m] = t->m;
    }
}

// The bounds of the bases from l to `end`, where the motif has come to `from` at l; gives that of `end`.
static int fill_bounds(peer_motif *t, const uint8_t *q, int from, int l, int end) {
    int bound = from, m = t->m;
    for (int i = l; i < end; i++) {
        t->bounds[i] = bound;
        bound += bound < m && (t->classes[bound] & 255) == peer_class(q[i]);
    }
    return t->bounds[end] = bound;
}

// Where an unbonded base y takes the motif from k on, before there are tables.
static int unit(const peer_motif *t, int k, uint8_t y) { return k < t->m && t->pm[k] <= k && peer_match(t->p[k], y) ? k + 1 : k; }

// Where the bases lo..hi, each as an unbonded one, take the motif from k on.
static int units(const Pair *s, int lo, int hi, int k) {
    for (int i = lo; i < hi; i++) k = steps_of(s, s->q[i])[k];
    return k;
}

// Whether no base of lo..hi begins an arc.
static int has_no_arc(const uint16_t *qm, int lo, int hi) {
    while (lo < hi && qm[lo] <= lo) lo++;
    return hi <= lo;
}

// How far the window lo..hi of the molecule takes the motif from `cur` on; with `stop`, some number below m where it cannot take the whole motif. A base whose
// arc leaves the window is unbonded there.
static int walk(peer_motif *t, const uint8_t *q, const uint16_t *qm, int lo, int hi, int cur, uint16_t *work, int stop) {
    Pair s = {q, t->pm, qm, t->classes, t->steps, t->bounds, t->m, 0, t->m};
    int m = t->m;
    for (int l = lo; l < hi && cur < m; l++) {
        if (stop && hi - l < m - cur) return cur;
        int r = qm[l];
        if (r <= l || hi <= r) {
            cur = steps_of(&s, q[l])[cur];
            continue;
        }
        uint8_t x = peer_class(q[l]), y = peer_class(q[r]);
        if (has_no_arc(qm, l + 1, r)) {
            int here = units(&s, l + 1, r, cur), next = (s.classes[cur] & 255) == x ? units(&s, l + 1, r, cur + 1) : cur;
            cur = arc_entry(&s, steps_of(&s, y), cur, x, y, here, next);
        } else {
            int most = fill_bounds(t, q, cur, l, r + 1);
            if (stop && most + (hi - r - 1) < m) return cur;
            if (cur < most) {
                s.from = cur;
                inner_row(&s, l, r, work);
                cur = arc_entry(&s, steps_of(&s, y), cur, x, y, work[cur], work[cur + 1]);
            }
        }
        l = r;
    }
    return cur;
}

// The length where both strands are valid. The tables are made at the first arc.
static size_t prefix_length(const uint8_t *p, const uint16_t *pm, size_t m, const uint8_t *q, const uint16_t *qm, size_t length, uint16_t *work) {
    peer_tables room;
    peer_motif t = PEER_MOTIF_OF(p, pm, m, &room);
    int i = 0, cur = 0, n = length;
    for (; i < n && cur < t.m && qm[i] == i; i++) cur = unit(&t, cur, q[i]);
    if (i == n || cur == t.m) return cur;
    peer_prepare(&t);
    return walk(&t, q, qm, i, n, cur, work, 0);
}

int segments_length(const uint8_t *p, const uint16_t *pm, size_t m, const uint8_t *q, const uint16_t *qm, size_t n, uint16_t *work, size_t *length,
                    peer_fold *fold) {
    if (!peer_strand_ok(p, pm, m, PEER_LEAST_MOTIF) || !peer_strand_ok(q, qm, n, PEER_LEAST_MOLECULE)) return 0;
    *fold = peer_fold_of(qm, n);
    *length = prefix_length(p, pm, m, q, qm, n, work);
    return 1;
}

int segments_carries(peer_motif *t, const uint8_t *q, const uint16_t *qm, int lo, int hi, uint16_t *work) {
    return walk(t, q, qm, lo, hi, 0, work, 1) == t->m;
}

int segments_embeds(peer_motif *t, const uint8_t *q, const uint16_t *qm, size_t n, uint16_t *work) { return segments_carries(t, q, qm, 0, n, work); }
