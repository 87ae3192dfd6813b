// The library's search for the tightest window in plain C (crates/window): from start to start where the motif's first base may stand, with walks over windows
// that are wider than what is looked for by a reach, and a window that carries the motif narrowed by halving, its end first, then its start. The call checks
// both strands first and counts the molecule's fold (sound.c), as the library's does. A motif with no bases needs no search.
#include "peer.h"

typedef struct {
    peer_motif *motif;
    const uint8_t *q;
    const uint16_t *qm;
    int n;
    uint16_t *work;
} Search;

static int larger(int a, int b) { return a < b ? b : a; }
static int smaller(int a, int b) { return a < b ? a : b; }

static int carries(const Search *s, int lo, int hi) { return segments_carries(s->motif, s->q, s->qm, lo, hi, s->work); }

// The lowest base from i on where the motif's first base may stand, or n: its letter fits, and it begins an arc if that base does.
static int next_begin(const Search *s, int i) {
    uint8_t first = s->motif->p[0];
    int begins_arc = 0 < s->motif->pm[0];
    while (i < s->n && (!peer_match(first, s->q[i]) || (begins_arc && s->qm[i] <= i))) i++;
    return i;
}

// The least end of a window from lo that carries the motif, where the window to `most` does and none that ends before `low`.
static int least_end(const Search *s, int lo, int low, int most) {
    while (low < most) {
        int mid = low + (most - low) / 2;
        if (carries(s, lo, mid)) most = mid;
        else low = mid + 1;
    }
    return most;
}

// The last start of a window to `hi` that carries the motif, where the window from `first` does and none from behind `last`.
static int last_start(const Search *s, int first, int last, int hi) {
    while (first < last) {
        int mid = last - (last - first) / 2;
        if (carries(s, mid, hi)) first = mid;
        else last = mid - 1;
    }
    return first;
}

// The next window to look for starts at `next` or later; none from there on that ends before `low` carries the motif.
static peer_window tightest(const Search *s) {
    int m = s->motif->m, n = s->n, start = 0, length = n + 1, next = 0, low = 0, reach = 0;
    while (low <= n && m < length) {
        next = next_begin(s, larger(next, low + 1 - length));
        low = larger(low, next + m);
        if (n < low) break;
        int hi = smaller(n, next + length - 1 + reach);
        if (!carries(s, next, hi)) {
            low = hi + 1;
            reach = smaller(2 * reach + 1, n);
            continue;
        }
        int end = least_end(s, next, low, hi), first = larger(next, end + 1 - length);
        if (first == next || carries(s, first, end)) {
            start = last_start(s, first, end - m, end);
            length = end - start;
            next = start + 1;
        } else {
            next = first;
        }
        low = end + 1;
        reach /= 2;
    }
    return (peer_window){start, length};
}

int window_tightest(const uint8_t *p, const uint16_t *pm, size_t m, const uint8_t *q, const uint16_t *qm, size_t n, uint16_t *work, peer_window *window,
                    peer_fold *fold) {
    if (!peer_strand_ok(p, pm, m, PEER_LEAST_MOTIF) || !peer_strand_ok(q, qm, n, PEER_LEAST_MOLECULE)) return 0;
    peer_tables room;
    peer_motif motif = PEER_MOTIF_OF(p, pm, m, &room);
    *fold = peer_fold_of(qm, n);
    if (m == 0) {
        *window = (peer_window){0, 0};
        return 1;
    }
    peer_prepare(&motif);
    *window = tightest(&(Search){&motif, q, qm, n, work});
    return 1;
}
