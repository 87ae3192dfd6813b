//! Document 003's algorithm as written: for each arc of the molecule two rows, the heavy child (the most arcs) first. A row of a stretch of the
//! molecule holds, for each j, the end of the longest closed prefix of the suffix from j that embeds in the stretch.
use super::strand::{Strand, matches};

struct Walk<'a> {
    p: Strand<'a>,
    q: Strand<'a>,
    /// For each left end the number of arcs of its tree.
    sizes: Vec<u16>,
    /// Rows no longer needed.
    spare: Vec<Vec<u16>>,
}

/// The length of the longest closed prefix that embeds.
pub fn length(p: Strand, q: Strand) -> usize {
    let mut walk = Walk { p, q, sizes: tree_sizes(q), spare: Vec::new() };
    let mut row = walk.identity();
    let mut i = q.len();
    while 0 < i {
        let (k, c) = (i - 1, q.mate(i - 1));
        if c == k {
            walk.extend(&mut row, k);
        } else {
            let arc = walk.arc(c, k);
            combine(&mut row, &arc);
            walk.spare.push(arc);
        }
        i = c;
    }
    row[0] as usize
}

/// The number of arcs in the tree of each left end: that of an arc's inside is the difference of two counts from the left.
fn tree_sizes(q: Strand) -> Vec<u16> {
    let mut before = Vec::with_capacity(q.len());
    let mut count = 0;
    for i in 0..q.len() {
        before.push(count);
        count += q.opens(i) as u16;
    }
    (0..q.len()).map(|i| if q.opens(i) { before[q.mate(i)] - before[i] } else { 0 }).collect()
}

/// Puts the stretch of the row `front` in front: the row at what the front reaches.
fn combine(row: &mut [u16], front: &[u16]) {
    for j in 0..row.len() {
        row[j] = row[front[j] as usize];
    }
}

impl Walk<'_> {
    /// The row of an empty stretch.
    fn identity(&mut self) -> Vec<u16> {
        let mut row = self.spare.pop().unwrap_or_default();
        row.clear();
        row.extend(0..=self.p.len() as u16);
        row
    }

    /// Puts the base i, with no bond in the stretch, in front: it takes the motif's base j where that opens no arc.
    fn extend(&self, row: &mut [u16], i: usize) {
        let (b, m) = (self.q.bases[i], self.p.len());
        let (bases, mates, row) = (&self.p.bases[..m], &self.p.mates[..m], &mut row[..=m]);
        for j in 0..m {
            if matches(bases[j], b) && mates[j] as usize <= j {
                row[j] = row[j + 1];
            }
        }
    }

    /// The left end of the child in l + 1 .. r with the most arcs.
    fn heavy(&self, l: usize, r: usize) -> Option<usize> {
        let (mut best, mut i) = (None, l + 1);
        while i < r {
            if self.q.opens(i) {
                if best.is_none_or(|b: usize| self.sizes[b] < self.sizes[i]) {
                    best = Some(i);
                }
                i = self.q.mate(i);
            }
            i += 1;
        }
        best
    }

    /// The row of the arc l, r.
    fn arc(&mut self, l: usize, r: usize) -> Vec<u16> {
        let heavy = self.heavy(l, r).map(|h| (h, self.arc(h, self.q.mate(h))));
        let mut inner = self.identity();
        let mut right = self.identity();
        self.extend(&mut right, r);
        let mut i = r;
        while l + 1 < i {
            let (k, c) = (i - 1, self.q.mate(i - 1));
            if c == k {
                self.extend(&mut inner, k);
                self.extend(&mut right, k);
            } else if let Some((_, row)) = heavy.as_ref().filter(|(h, _)| *h == c) {
                combine(&mut inner, row);
                combine(&mut right, row);
            } else {
                let row = self.arc(c, k);
                combine(&mut inner, &row);
                combine(&mut right, &row);
                self.spare.push(row);
            }
            i = c;
        }
        let mut left = heavy.map_or_else(|| self.identity(), |(_, row)| row);
        left.copy_from_slice(&inner);
        self.extend(&mut left, l);
        self.meld(&mut left, &right, &inner, l, r);
        self.spare.push(inner);
        self.spare.push(right);
        left
    }

    /// The row of the arc from the inner row with the left end, with the right end, and with none; it is left in `left`.
    fn meld(&self, left: &mut [u16], right: &[u16], inner: &[u16], l: usize, r: usize) {
        let (p, x, y) = (self.p, self.q.bases[l], self.q.bases[r]);
        for j in 0..p.len() {
            let k = p.mate(j);
            left[j] = if k <= j {
                left[j].max(right[j])
            } else if matches(p.bases[j], x) && matches(p.bases[k], y) && k <= inner[j + 1] as usize {
                right[j].max(k as u16 + 1)
            } else {
                right[j]
            };
        }
    }
}
