// Show in plain C from a table of all rows: a row for each position of the molecule, from there to the end of the arc around it. `rows` has
// (n + 1) (m + 1) numbers; the library's show has no such table.
#include "peer.h"

typedef struct {
    const uint8_t *p, *q;
    const uint16_t *pm, *qm;
    size_t m;
    uint16_t *rows;
} Table;

// How far a suffix of the motif comes in an arc, and how: with its first base on the left end (and its mate on the right end), or without the left end.
typedef struct {
    enum { ARC, LEFT, RIGHT } kind;
    size_t end;
} Fit;

static size_t at(const Table *t, size_t i, size_t j) { return t->rows[i * (t->m + 1) + j]; }

// j + 1 where the base i alone takes the motif's base j, else j.
static size_t over_base(const Table *t, size_t i, size_t j) { return j + (j < t->m && peer_match(t->p[j], t->q[i]) && t->pm[j] <= j); }

// The best fit of the suffix from j in the arc that i opens.
static Fit in_arc(const Table *t, size_t i, size_t j) {
    size_t r = t->qm[i], k = t->pm[j];
    Fit right = {RIGHT, over_base(t, r, at(t, i + 1, j))}, with = right;
    if (!peer_match(t->p[j], t->q[i])) return right;
    if (k <= j)
        with = (Fit){LEFT, at(t, i + 1, j + 1)};
    else if (peer_match(t->p[k], t->q[r]) && k <= at(t, i + 1, j + 1))
        with = (Fit){ARC, k + 1};
    return right.end < with.end ? with : right;
}

static void fill_row(Table *t, size_t i, size_t n) {
    uint16_t *row = t->rows + i * (t->m + 1);
    row[t->m] = t->m;
    for (size_t j = 0; j < t->m; j++) {
        if (i == n || t->qm[i] < i)
            row[j] = j;
        else if (i < t->qm[i])
            row[j] = at(t, t->qm[i] + 1, in_arc(t, i, j).end);
        else
            row[j] = at(t, i + 1, over_base(t, i, j));
    }
}

static void place(const Table *t, size_t i, size_t j, size_t end, uint16_t *places);

// Places what fits of j .. end in the arc that i opens, and gives where that ends.
static size_t place_in_arc(const Table *t, size_t i, size_t j, size_t end, uint16_t *places) {
    Fit fit = in_arc(t, i, j);
    size_t stop = fit.end < end ? fit.end : end;
    if (stop == j) return j;
    if (fit.kind == RIGHT) {
        size_t inner = at(t, i + 1, j);
        if (stop < inner) inner = stop;
        place(t, i + 1, j, inner, places);
        if (inner < stop) places[inner] = t->qm[i];
        return stop;
    }
    places[j] = i;
    if (fit.kind == ARC) places[stop - 1] = t->qm[i];
    place(t, i + 1, j + 1, fit.kind == ARC ? stop - 1 : stop, places);
    return stop;
}

// Places the motif's positions j .. end in the stretch from i.
static void place(const Table *t, size_t i, size_t j, size_t end, uint16_t *places) {
    while (j < end)
        if (i < t->qm[i]) {
            j = place_in_arc(t, i, j, end, places);
            i = t->qm[i] + 1;
        } else {
            if (j < over_base(t, i, j)) places[j++] = i;
            i++;
        }
}

size_t table_show(const uint8_t *p, const uint16_t *pm, size_t m, const uint8_t *q, const uint16_t *qm, size_t n, uint16_t *rows, uint16_t *places,
                  peer_fold *fold) {
    Table t = {p, q, pm, qm, m, rows};
    *fold = peer_fold_of(qm, n);
    for (size_t i = n + 1; 0 < i--;) fill_row(&t, i, n);
    size_t found = at(&t, 0, 0);
    place(&t, 0, 0, found, places);
    return found;
}
