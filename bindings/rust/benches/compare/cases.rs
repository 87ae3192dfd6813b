//! The inputs of the benchmarks: strands of five shapes with random letters, and buffers of them.
use crate::make;
use crate::plain::block::{self, Owned};
use crate::plain::windows::{Window, cut_out};
use crate::random::Random;
use lakhido::{BLOCKS_MOST, MOLECULE_MOST, MOTIF_MOST, SLOTS_MOST};

pub const SEED: u64 = 20;
pub const SIZES: [(usize, usize); 5] = [(160, 20), (160, 120), (1500, 200), (4096, 512), (4096, 4096)];
pub const WINDOW_SIZES: [(usize, usize); 4] = [(160, 20), (160, 60), (1500, 100), (4096, 512)];
/// The bases of a molecule that fills a quarter of its block.
pub const SHORT: usize = MOLECULE_MOST / 4;
pub const SHAPES: [&str; 5] = ["no arcs", "random fold", "stem", "comb", "balanced"];

fn fold(r: &mut Random, shape: &str, n: usize) -> Vec<u16> {
    match shape {
        "no arcs" => make::no_arcs(n),
        "random fold" => make::random_fold(r, n, 3),
        "stem" => make::stem(n),
        "comb" => make::comb(n),
        _ => make::balanced(n),
    }
}

/// Four letters: T would only be a second U.
pub fn strand(r: &mut Random, shape: &str, n: usize) -> Owned {
    Owned { bases: (0..n).map(|_| r.pick(b"ACGU")).collect(), mates: fold(r, shape, n) }
}

/// A molecule and a motif of one shape: the motif unrelated, or taken out of the molecule so that it embeds.
pub struct Case {
    pub shape: &'static str,
    pub motif: &'static str,
    pub p: Owned,
    pub q: Owned,
}

/// The cases of every shape and these sizes; `taken` takes a motif of m bases out of a molecule.
pub fn cases(sizes: &[(usize, usize)], taken: fn(&mut Random, &Owned, usize) -> Owned) -> Vec<Case> {
    let mut r = Random::new(SEED);
    let mut cases = Vec::new();
    for shape in SHAPES {
        for &(n, m) in sizes {
            let q = strand(&mut r, shape, n);
            if n != m {
                cases.push(Case { shape, motif: "unrelated", p: strand(&mut r, shape, m), q: q.clone() });
            }
            cases.push(Case { shape, motif: "embeds", p: taken(&mut r, &q, m), q });
        }
    }
    cases
}

/// A motif taken out of a stretch in the middle of the molecule, two to three times as long as the motif, so that a window of no more bases carries it.
pub fn taken_near(r: &mut Random, q: &Owned, m: usize) -> Owned {
    let n = q.bases.len();
    let width = r.between(2 * m, n.min(3 * m));
    make::taken_out(r, &cut_out(q.lend(), Window { start: (n - width) / 2, length: width }), m)
}

/// A catalog of molecules of one shape and n bases.
pub fn catalog(r: &mut Random, shape: &str, n: usize) -> Vec<u8> {
    (0..BLOCKS_MOST).flat_map(|_| block::molecule_block(strand(r, shape, n).lend())).collect()
}

/// A cache of motifs of one shape.
pub fn cache(r: &mut Random, shape: &str) -> Vec<u8> {
    let entry = |d: usize| {
        let p = strand(r, shape, MOTIF_MOST);
        block::entry_block(p.lend(), (0..BLOCKS_MOST).map(|k| (k, k % 7 == d % 7)))
    };
    (0..SLOTS_MOST).flat_map(entry).collect()
}
