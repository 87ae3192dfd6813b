//! The plain implementation against itself: each quick way against the words of document 01 and of the requests (i) to (iii) and (vi) of 02.
use crate::make;
use crate::plain::embedding::{closed, longest_by_trying, verify, verify_linear};
use crate::plain::strand::{Fold, Strand, depth_by_trying, fold_of, lowest_crossing, lowest_crossing_by_pairs, matches};
use crate::plain::windows::{tightest, tightest_by_definition};
use crate::plain::{rows, table::Table};
use crate::random::{rounds, seeded};

/// Rows, table and trying give one length, and the table's places are an embedding.
fn lengths_agree(p: Strand, q: Strand, trying: bool) {
    let by_rows = rows::length(p, q);
    let t = Table::new(p, q);
    let mut places = vec![7777; p.len()];
    assert_eq!(by_rows, t.show(&mut places), "rows and table: {p:?}, {q:?}");
    assert!(closed(p, by_rows), "an open prefix: {p:?}, {q:?}");
    let prefix = Strand::new(&p.bases[..by_rows], &p.mates[..by_rows]);
    assert!(verify(prefix, q, &places[..by_rows]), "no embedding: {p:?}, {q:?}, {places:?}");
    assert!(places[by_rows..].iter().all(|&x| x == 7777));
    if trying {
        assert_eq!(by_rows, longest_by_trying(p, q), "rows and trying: {p:?}, {q:?}");
    }
}

#[test]
fn the_matchers_agree() {
    let mut r = seeded();
    for case in 0..rounds(30_000) {
        let n = if case % 100 == 0 { r.between(1, 300) } else { r.between(1, 14) };
        let (p, q) = make::pair(&mut r, n, n.min(40));
        lengths_agree(p.lend(), q.lend(), n < 15);
    }
}

#[test]
fn the_verifiers_agree() {
    let mut r = seeded();
    let mut yes = 0;
    for _ in 0..rounds(50_000) {
        let n = r.between(1, 12);
        let (p, q) = make::pair(&mut r, n, n.min(6));
        let mut places = vec![0; p.bases.len()];
        Table::new(p.lend(), q.lend()).show(&mut places);
        if !places.is_empty() && r.one_in(2) {
            let at = r.below(places.len());
            places[at] = r.below(n + 2) as u16;
        }
        let answer = verify(p.lend(), q.lend(), &places);
        yes += answer as usize;
        assert_eq!(answer, verify_linear(p.lend(), q.lend(), &places), "{p:?}, {q:?}, {places:?}");
    }
    assert!(1_000 < yes);
}

#[test]
fn the_windows_agree() {
    let mut r = seeded();
    let (mut found, mut narrower) = (0, 0);
    for case in 0..rounds(40_000) {
        let n = if case % 20 == 0 { r.between(1, 40) } else { r.between(1, 14) };
        let (p, q) = make::window_pair(&mut r, n, n.min(12));
        let (p, q) = (p.lend(), q.lend());
        let answer = tightest_by_definition(p, q, rows::length);
        assert_eq!(tightest(p, q), answer, "two pointers and definition: {p:?}, {q:?}");
        if n < 10 {
            assert_eq!(tightest_by_definition(p, q, longest_by_trying), answer, "trying and rows: {p:?}, {q:?}");
        }
        found += answer.is_some() as usize;
        narrower += answer.is_some_and(|window| window.length < n) as usize;
    }
    assert!(1_000 < narrower && narrower < found && found < rounds(40_000));
}

#[test]
fn the_crossings_agree() {
    let mut r = seeded();
    let mut found = 0;
    for _ in 0..rounds(100_000) {
        let n = r.between(1, 24);
        let mut s = make::strand(&mut r, n);
        for _ in 0..r.below(3) {
            make::damage(&mut r, &mut s, 7, 0);
        }
        let place = lowest_crossing(&s.mates);
        found += place.is_some() as usize;
        assert_eq!(place, lowest_crossing_by_pairs(&s.mates), "{:?}", s.mates);
    }
    assert!(1_000 < found);
}

#[test]
fn the_depths_agree() {
    let mut r = seeded();
    let mut deep = 0;
    for _ in 0..rounds(50_000) {
        let n = r.between(1, 24);
        let mates = make::fold(&mut r, n);
        let fold = fold_of(&mates);
        let ends = (0..n).filter(|&i| mates[i] as usize != i).count();
        assert_eq!(fold, Fold { arcs: ends / 2, depth: depth_by_trying(&mates) }, "{mates:?}");
        deep += (1 < fold.depth && fold.depth < fold.arcs) as usize;
    }
    assert!(1_000 < deep);
}

/// All pairs of bytes: the same, and T with U.
#[test]
fn the_bytes_that_match() {
    let others: Vec<(u8, u8)> = (0..=255).flat_map(|a| (0..=255).map(move |b| (a, b))).filter(|&(a, b)| a != b && matches(a, b)).collect();
    assert_eq!(others, [(b'T', b'U'), (b'U', b'T')]);
    assert!((0..=255).all(|a| matches(a, a)));
}
