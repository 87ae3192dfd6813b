//! Holds the library to `plain`, an independent implementation of document 01 and the requests (i) to (vi) of 02: the same inputs, answers and all
//! buffers compared byte for byte.
//!
//! Each test prints its seed and how many comparisons it made (`cargo test --release -- --nocapture`). LAKHIDO_SEED sets the seed; otherwise it is taken
//! from the clock. LAKHIDO_ROUNDS multiplies the random cases. A difference prints the input that shows it.
mod batch;
mod blocks;
mod catalog;
mod direct;
mod guard;
mod histories;
mod make;
mod order;
mod plain;
mod plain_alone;
mod random;
mod settled;
mod spellings;
mod windows;

use plain::strand::{Fold, Refused};

/// A refusal of the library as number, side and place.
fn refused(r: lakhido::Refusal) -> Refused {
    Refused(r.reason.number() as u32, r.side.number() as u32, r.place)
}

/// A fold of the library as the plain one.
fn folded(f: lakhido::Fold) -> Fold {
    Fold { arcs: f.arcs, depth: f.depth }
}

fn lent<'a>(s: plain::strand::Strand<'a>) -> lakhido::Strand<'a> {
    lakhido::Strand::new(s.bases, s.mates)
}

/// Says what a test did.
fn report(what: &str, comparisons: usize) {
    println!("{what}: {comparisons} comparisons");
}
