//! Request (ii) of document 02: the windows of a molecule, and the tightest that carries a motif.
use super::block::Owned;
use super::rows;
use super::strand::Strand;

/// A window, or none.
pub type Tightest = Option<Window>;

/// A stretch of a molecule: `length` bases from `start`.
#[derive(Clone, Copy, PartialEq, Eq, Debug)]
pub struct Window {
    pub start: usize,
    pub length: usize,
}

/// The window as a strand of its own: "A window has the arcs with both ends in it."
pub fn cut_out(q: Strand, window: Window) -> Owned {
    let stretch = window.start..window.start + window.length;
    let mate = |i: usize| if stretch.contains(&q.mate(i)) { q.mate(i) } else { i };
    Owned { bases: q.bases[stretch.clone()].to_vec(), mates: stretch.clone().map(|i| (mate(i) - window.start) as u16).collect() }
}

/// By the words of 02: all windows, the shorter first and of one length the earlier first, each cut out. `length` is a matcher.
pub fn tightest_by_definition(p: Strand, q: Strand, length: fn(Strand, Strand) -> usize) -> Tightest {
    let of_length = |length| (0..=q.len() - length).map(move |start| Window { start, length });
    (0..=q.len()).flat_map(of_length).find(|&window| length(p, cut_out(q, window).lend()) == p.len())
}

/// The same by two pointers: a window that carries the motif still does with more bases, so the least end for a start never falls as the start rises.
pub fn tightest(p: Strand, q: Strand) -> Tightest {
    let mut best: Tightest = None;
    let mut end = 0;
    for start in 0..q.len() {
        end = end.max(start + p.len());
        while end <= q.len() && rows::length(p, cut_out(q, Window { start, length: end - start }).lend()) < p.len() {
            end += 1;
        }
        if q.len() < end {
            break;
        }
        if best.is_none_or(|window| end - start < window.length) {
            best = Some(Window { start, length: end - start });
        }
    }
    best
}
