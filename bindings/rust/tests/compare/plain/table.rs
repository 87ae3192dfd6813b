//! The longest closed prefix and its places from one table of all rows: a row for each position of the molecule, from there to the end of the arc
//! around it. It needs (n + 1) (m + 1) numbers, and shares no step with the walk of document 003.
use super::strand::{Strand, matches};

pub struct Table<'a> {
    p: Strand<'a>,
    q: Strand<'a>,
    /// Row i, entry j: how far the suffix from j comes in the stretch from i to the end of the arc around i.
    rows: Vec<u16>,
}

/// How the suffix from j fits in an arc.
#[derive(Clone, Copy)]
enum Fit {
    /// j on the left end, its mate on the right end.
    Arc(usize),
    /// j on the left end, which counts as a base alone.
    Left(usize),
    /// The left end is not used.
    Right(usize),
}

impl<'a> Table<'a> {
    pub fn new(p: Strand<'a>, q: Strand<'a>) -> Self {
        let (m, n) = (p.len(), q.len());
        let w = m + 1;
        let mut t = Table { p, q, rows: vec![0; (n + 1) * w] };
        for i in (0..=n).rev() {
            let ends = i == n || q.mate(i) < i;
            for j in 0..w {
                let value = if ends || j == m {
                    j
                } else if q.opens(i) {
                    t.at(q.mate(i) + 1, t.in_arc(i, j).end())
                } else {
                    t.at(i + 1, t.over_base(i, j))
                };
                t.rows[i * w + j] = value as u16;
            }
        }
        t
    }

    fn at(&self, i: usize, j: usize) -> usize {
        self.rows[i * (self.p.len() + 1) + j] as usize
    }

    /// j + 1 where the base i alone takes the motif's base j, else j.
    fn over_base(&self, i: usize, j: usize) -> usize {
        j + (j < self.p.len() && matches(self.p.bases[j], self.q.bases[i]) && !self.p.opens(j)) as usize
    }

    /// The best fit of the suffix from j in the arc that i opens.
    fn in_arc(&self, i: usize, j: usize) -> Fit {
        let (p, q, r) = (self.p, self.q, self.q.mate(i));
        let right = Fit::Right(self.over_base(r, self.at(i + 1, j)));
        if !matches(p.bases[j], q.bases[i]) {
            return right;
        }
        let k = p.mate(j);
        let with = if !p.opens(j) {
            Fit::Left(self.at(i + 1, j + 1))
        } else if matches(p.bases[k], q.bases[r]) && k <= self.at(i + 1, j + 1) {
            Fit::Arc(k + 1)
        } else {
            return right;
        };
        if right.end() < with.end() { with } else { right }
    }

    pub fn length(&self) -> usize {
        self.at(0, 0)
    }

    /// Writes an embedding of the longest closed prefix and gives its length.
    pub fn show(&self, places: &mut [u16]) -> usize {
        let found = self.length();
        self.place(0, 0, found, places);
        found
    }

    /// Places the motif's positions j .. end in the stretch from i.
    fn place(&self, mut i: usize, mut j: usize, end: usize, places: &mut [u16]) {
        while j < end {
            if self.q.opens(i) {
                j = self.place_in_arc(i, j, end, places);
                i = self.q.mate(i) + 1;
            } else {
                if j < self.over_base(i, j) {
                    places[j] = i as u16;
                    j += 1;
                }
                i += 1;
            }
        }
    }

    /// Places what fits of j .. end in the arc that i opens, and gives where that ends.
    fn place_in_arc(&self, i: usize, j: usize, end: usize, places: &mut [u16]) -> usize {
        let r = self.q.mate(i);
        let fit = self.in_arc(i, j);
        let stop = fit.end().min(end);
        if stop == j {
            return j;
        }
        match fit {
            Fit::Arc(_) => {
                places[j] = i as u16;
                places[stop - 1] = r as u16;
                self.place(i + 1, j + 1, stop - 1, places);
            }
            Fit::Left(_) => {
                places[j] = i as u16;
                self.place(i + 1, j + 1, stop, places);
            }
            Fit::Right(_) => {
                let inner = self.at(i + 1, j).min(stop);
                self.place(i + 1, j, inner, places);
                if inner < stop {
                    places[inner] = r as u16;
                }
            }
        }
        stop
    }
}

impl Fit {
    fn end(self) -> usize {
        match self {
            Fit::Arc(end) | Fit::Left(end) | Fit::Right(end) => end,
        }
    }
}
