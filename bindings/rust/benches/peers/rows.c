// Document 003's rows in plain C: for each arc the row of what lies inside it and, beside it, the row of that with the arc's right end; every row for all
// suffixes of the motif; the heavy child first, which here is the longest and in 003 and the plain Rust the one with the most arcs. No segment of the motif
// and no table.
#include "peer.h"

#include <string.h>

typedef struct {
    const uint8_t *p, *q;
    const uint16_t *pm, *qm;
    int m;
} Pair;

// The row of an empty stretch.
static void identity(uint16_t *row, int m) {
    for (int j = 0; j <= m; j++) row[j] = j;
}

// Puts the base b, or an end of an arc alone, in front of the row's stretch.
static void extend(const Pair *s, uint16_t *row, uint8_t b) {
    for (int j = 0; j < s->m; j++)
        if (peer_match(s->p[j], b) && s->pm[j] <= j) row[j] = row[j + 1];
}

// Puts the stretch of the row `front` in front.
static void combine(uint16_t *row, const uint16_t *front, int m) {
    for (int j = 0; j <= m; j++) row[j] = row[front[j]];
}

// The row of an arc with the letters x, y, from its inner row and the inner row with the right end; it is left in `inner`.
static void meld(const Pair *s, uint16_t *inner, const uint16_t *right, uint8_t x, uint8_t y) {
    for (int j = 0; j < s->m; j++) {
        uint16_t best = right[j], next = inner[j + 1];
        if (peer_match(s->p[j], x)) {
            int k = s->pm[j];
            if (k <= j) {
                if (best < next) best = next;
            } else if (peer_match(s->p[k], y) && k <= next && best < k + 1) {
                best = k + 1;
            }
        }
        inner[j] = best;
    }
}

// Leaves the row of the arc l, r in the first row of work.
static void arc(const Pair *s, int l, int r, uint16_t *work) {
    int w = s->m + 1, heavy = peer_heaviest(s->qm, l + 1, r);
    uint16_t *child = work, *inner = work + w, *right = inner + w, *light = right + w;
    if (heavy < r) arc(s, heavy, s->qm[heavy], child);
    identity(inner, s->m);
    identity(right, s->m);
    extend(s, right, s->q[r]);
    for (int i = r; l + 1 < i;) {
        int k = i - 1, c = s->qm[k];
        if (c == k) {
            extend(s, inner, s->q[k]);
            extend(s, right, s->q[k]);
        } else {
            uint16_t *row = child;
            if (c != heavy) arc(s, c, k, row = light);
            combine(inner, row, s->m);
            combine(right, row, s->m);
        }
        i = c;
    }
    meld(s, inner, right, s->q[l], s->q[r]);
    memcpy(work, inner, w * sizeof *work);
}

size_t rows_length(const uint8_t *p, const uint16_t *pm, size_t length, const uint8_t *q, const uint16_t *qm, size_t n, uint16_t *work) {
    int m = length;
    Pair s = {p, q, pm, qm, m};
    uint16_t *row = work, *part = work + m + 1;
    identity(row, m);
    for (int i = n; 0 < i;) {
        int k = i - 1, c = qm[k];
        if (c == k) {
            extend(&s, row, q[k]);
        } else {
            arc(&s, c, k, part);
            combine(row, part, m);
        }
        i = c;
    }
    return row[0];
}

int rows_embeds(peer_motif *t, const uint8_t *q, const uint16_t *qm, size_t n, uint16_t *work) {
    return rows_length(t->p, t->pm, t->m, q, qm, n, work) == (size_t)t->m;
}
