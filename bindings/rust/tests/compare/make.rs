//! Random strands: shapes of folds, motifs taken out of molecules, and damage for each row of the table of refusals.
use crate::plain::block::Owned;
use crate::plain::windows::{Window, cut_out};
use crate::random::Random;

const LETTERS: [u8; 5] = *b"TUACG";

/// Random letters out of the first few: T alone, T and U, which match, and more.
pub fn letters(r: &mut Random, n: usize) -> Vec<u8> {
    let few = r.between(1, 5);
    (0..n).map(|_| LETTERS[r.below(few)]).collect()
}

/// U for T and T for U, at every one of them or now and then.
pub fn respell(r: &mut Random, s: &Owned) -> Owned {
    let often = r.pick(&[1, 1, 2, 4]);
    let other = |r: &mut Random, base: u8| match base {
        b'T' if r.one_in(often) => b'U',
        b'U' if r.one_in(often) => b'T',
        _ => base,
    };
    Owned { bases: s.bases.iter().map(|&base| other(r, base)).collect(), mates: s.mates.clone() }
}

fn bond(mates: &mut [u16], i: usize, j: usize) {
    mates[i] = j as u16;
    mates[j] = i as u16;
}

pub fn no_arcs(n: usize) -> Vec<u16> {
    (0..n as u16).collect()
}

/// Opens and closes arcs at random; `quiet` of the bases in ten have no bond.
pub fn random_fold(r: &mut Random, n: usize, quiet: usize) -> Vec<u16> {
    let (mut mates, mut open) = (no_arcs(n), Vec::new());
    for i in 0..n {
        if r.below(10) < quiet {
            continue;
        }
        if r.one_in(2) {
            open.push(i);
        } else if let Some(l) = open.pop() {
            bond(&mut mates, l, i);
        }
    }
    mates
}

pub fn stem(n: usize) -> Vec<u16> {
    (0..n as u16).rev().collect()
}

/// One arc around many short ones.
pub fn comb(n: usize) -> Vec<u16> {
    let mut mates = no_arcs(n);
    if 1 < n {
        bond(&mut mates, 0, n - 1);
    }
    for i in (1..n).step_by(4).filter(|i| i + 4 < n) {
        bond(&mut mates, i, i + 2);
    }
    mates
}

/// Each arc around two halves.
pub fn balanced(n: usize) -> Vec<u16> {
    fn split(mates: &mut [u16], lo: usize, hi: usize) {
        if 1 < hi - lo {
            let middle = (lo + hi) / 2;
            bond(mates, lo, hi - 1);
            split(mates, lo + 1, middle);
            split(mates, middle, hi - 1);
        }
    }
    let mut mates = no_arcs(n);
    split(&mut mates, 0, n);
    mates
}

pub fn fold(r: &mut Random, n: usize) -> Vec<u16> {
    match r.below(8) {
        0 => no_arcs(n),
        1 => stem(n),
        2 => comb(n),
        3 => balanced(n),
        _ => {
            let quiet = r.below(10);
            random_fold(r, n, quiet)
        }
    }
}

/// A nested strand of n bases.
pub fn strand(r: &mut Random, n: usize) -> Owned {
    Owned { bases: letters(r, n), mates: fold(r, n) }
}

/// A motif of about m bases that embeds: the molecule with bases deleted, and with them their bonds. Mates are mostly kept together.
pub fn taken_out(r: &mut Random, q: &Owned, m: usize) -> Owned {
    let n = q.bases.len();
    let mut keep = vec![false; n];
    let mut left = m.min(n);
    while 0 < left {
        let i = r.below(n);
        let together = !r.one_in(6);
        for k in [i, if together { q.mates[i] as usize } else { i }] {
            if !keep[k] && 0 < left {
                keep[k] = true;
                left -= 1;
            }
        }
    }
    let kept: Vec<usize> = (0..n).filter(|&i| keep[i]).collect();
    let mut place = vec![None; n];
    for (j, &i) in kept.iter().enumerate() {
        place[i] = Some(j as u16);
    }
    Owned {
        bases: kept.iter().map(|&i| q.bases[i]).collect(),
        mates: kept.iter().enumerate().map(|(j, &i)| place[q.mates[i] as usize].unwrap_or(j as u16)).collect(),
    }
}

/// Changes a strand a little and keeps it nested: a letter, a bond less, or a bond between neighbours more. Without bases there is nothing to change.
pub fn nudge(r: &mut Random, s: &mut Owned) {
    if s.bases.is_empty() {
        return;
    }
    let i = r.below(s.bases.len());
    match r.below(3) {
        0 => s.bases[i] = r.pick(&LETTERS),
        1 => unbond(&mut s.mates, i),
        _ => {
            let k = (i + 1).min(s.bases.len() - 1);
            if s.mates[i] as usize == i && s.mates[k] as usize == k && i < k {
                bond(&mut s.mates, i, k);
            }
        }
    }
}

fn unbond(mates: &mut [u16], i: usize) {
    let k = mates[i] as usize;
    mates[i] = i as u16;
    if let Some(mate) = mates.get_mut(k) {
        *mate = k as u16;
    }
}

/// A motif for a molecule: taken out of it, nudged, spelled otherwise, or unrelated; m is about its length.
pub fn motif(r: &mut Random, q: &Owned, m: usize) -> Owned {
    let mut p = if r.one_in(4) { strand(r, m) } else { taken_out(r, q, m) };
    if r.one_in(2) {
        p = respell(r, &p);
    }
    for _ in 0..r.below(3) {
        nudge(r, &mut p);
    }
    p
}

/// The length of a motif: 0 one time in twenty, else 1 to `most`.
pub fn motif_length(r: &mut Random, most: usize) -> usize {
    if r.one_in(20) { 0 } else { r.between(1, most) }
}

/// A molecule of n bases, and before it a motif for it, of about `motif_length`.
pub fn pair(r: &mut Random, n: usize, most: usize) -> (Owned, Owned) {
    let q = strand(r, n);
    let m = motif_length(r, most);
    (motif(r, &q, m), q)
}

/// A molecule of n bases, and before it a motif of about `motif_length`: mostly taken out of a stretch that is not much longer, so that it embeds in a window,
/// sometimes nudged; else as in `pair`.
pub fn window_pair(r: &mut Random, n: usize, most: usize) -> (Owned, Owned) {
    let q = strand(r, n);
    let m = motif_length(r, most.min(n));
    if r.one_in(4) {
        return (motif(r, &q, m), q);
    }
    let spread = 1 + m * r.below(4);
    let length = r.between(m, (m + spread).min(n));
    let stretch = cut_out(q.lend(), Window { start: r.below(n - length + 1), length });
    let mut p = taken_out(r, &stretch, m);
    if r.one_in(2) {
        p = respell(r, &p);
    }
    if r.one_in(4) {
        nudge(r, &mut p);
    }
    (p, q)
}

/// Damages a strand so that the given row, 1 to 7, applies to it, as far as its length allows. To damage it by several rows, take the higher first.
pub fn damage(r: &mut Random, s: &mut Owned, row: u32, most: usize) {
    let n = s.bases.len();
    match row {
        1 if s.mates.is_empty() || r.one_in(2) => s.mates.push(r.below(n + 2) as u16),
        1 => drop(s.mates.pop()),
        2 => *s = Owned { bases: Vec::new(), mates: Vec::new() },
        3 => {
            let longer = most + 1 + r.below(3);
            s.bases.resize(longer.max(n), b'G');
            s.mates.extend(s.mates.len() as u16..longer as u16);
        }
        4 if 0 < n => {
            let at = r.below(n);
            s.bases[at] = r.pick(&[0, b't', b'u', b'X', b'a', b'@', b'B', b'N', 64, 66, 68, 70, 72, 83, 86, 128, 193, 212, 255]);
        }
        5 if 0 < n => {
            let (at, beyond) = (r.below(n), n + r.below(300));
            s.mates[at] = r.pick(&[n, n + 1, beyond, 32768, 65535]) as u16;
        }
        6 if 1 < n => {
            let at = r.below(n);
            let other = r.below(n);
            s.mates[at] = if s.mates[at] as usize == at && other != at { other as u16 } else { at as u16 };
        }
        7 if 3 < n => {
            let mut four = [r.below(n), r.below(n), r.below(n), r.below(n)];
            four.sort_unstable();
            if four.windows(2).all(|w| w[0] < w[1]) {
                for i in four {
                    unbond(&mut s.mates, i);
                }
                bond(&mut s.mates, four[0], four[2]);
                bond(&mut s.mates, four[1], four[3]);
            }
        }
        _ => {}
    }
}

/// Damages a strand by the rows of a list, the higher first.
pub fn damage_by(r: &mut Random, s: &mut Owned, rows: &[u32], most: usize) {
    let mut rows = rows.to_vec();
    rows.sort_unstable();
    for &row in rows.iter().rev() {
        damage(r, s, row, most);
    }
}
