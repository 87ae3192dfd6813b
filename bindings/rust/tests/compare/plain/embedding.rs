//! What an embedding is, word for word, and the longest closed prefix by trying.
use super::strand::{Strand, matches};

/// Verify: the places are an embedding of the whole motif. Every pair of positions is looked at.
pub fn verify(p: Strand, q: Strand, places: &[u16]) -> bool {
    let at = |j: usize| places[j] as usize;
    let m = p.len();
    (0..m).all(|j| at(j) < q.len() && matches(p.bases[j], q.bases[at(j)]))
        && (0..m).all(|k| (0..k).all(|j| at(j) < at(k) && p.arc(j, k) == q.arc(at(j), at(k))))
}

/// The same in linear time: each place's mate, where it is a place itself, tells the mate.
pub fn verify_linear(p: Strand, q: Strand, places: &[u16]) -> bool {
    let at = |j: usize| places[j] as usize;
    let m = p.len();
    if !(0..m).all(|j| at(j) < q.len() && matches(p.bases[j], q.bases[at(j)])) || !(1..m).all(|j| at(j - 1) < at(j)) {
        return false;
    }
    let mut from = vec![None; q.len()];
    for j in 0..m {
        from[at(j)] = Some(j);
    }
    (0..m).all(|j| p.mate(j) == from[q.mate(at(j))].unwrap_or(j))
}

/// The prefix of `size` bases is closed: no arc has one end in it and one outside.
pub fn closed(p: Strand, size: usize) -> bool {
    (0..size).all(|j| p.mate(j) < size)
}

/// The largest closed prefix that embeds, by trying all rising places.
pub fn longest_by_trying(p: Strand, q: Strand) -> usize {
    (0..=p.len()).rev().find(|&size| closed(p, size) && extends(p, q, size, &mut Vec::new())).expect("the empty prefix embeds")
}

/// The places so far can be continued to an embedding of the prefix of `size` bases.
fn extends(p: Strand, q: Strand, size: usize, places: &mut Vec<usize>) -> bool {
    let k = places.len();
    if k == size {
        return true;
    }
    for i in places.last().map_or(0, |&last| last + 1)..q.len() {
        if matches(p.bases[k], q.bases[i]) && (0..k).all(|j| p.arc(j, k) == q.arc(places[j], i)) {
            places.push(i);
            if extends(p, q, size, places) {
                return true;
            }
            places.pop();
        }
    }
    false
}
