//! Window against the plain implementation: every small pair by definition, random short pairs by definition, random long ones by two pointers. The answered
//! window is also held to the other calls: show and verify on the window cut out, length on the two windows that are one base shorter.
use crate::direct::{self, Lent};
use crate::guard::Guarded;
use crate::make;
use crate::plain::block::Owned;
use crate::plain::calls::{self, LONGEST, work_size};
use crate::plain::embedding::longest_by_trying;
use crate::plain::rows;
use crate::plain::strand::{Fold, Refused, Strand, fold_of};
use crate::plain::windows::{Tightest, Window, cut_out, tightest_by_definition};
use crate::random::{rounds, seeded};
use crate::{folded, lent, refused, report};

/// The answer of window.
fn windowed(answer: Result<lakhido::Windowed, lakhido::Refusal>) -> Result<(Tightest, Fold), Refused> {
    let plain = |window: lakhido::Window| Window { start: window.start, length: window.length };
    answer.map(|found| (found.window.map(plain), folded(found.fold))).map_err(refused)
}

/// `expected` is the window with the molecule's fold where the call is accepted.
pub fn window(p: Strand, q: Strand, size: usize, expected: Result<(Tightest, Fold), Refused>) {
    let (pl, ql) = (Lent::new(p), Lent::new(q));
    let mut work = Guarded::new(&direct::work_of(size));
    let answer = windowed(lakhido::window(pl.strand(), ql.strand(), work.lend()));
    assert_eq!(answer, expected, "window: library, plain; {p:?}, {q:?}, work {size}");
    assert!(pl.kept() && ql.kept() && work.edges_kept(), "window wrote where it must not: {p:?}, {q:?}, work {size}");
    assert!(answer.is_ok() || work.kept(), "a refused window wrote to work: {p:?}, {q:?}, work {size}");
}

/// The library's own length of the motif in a window, cut out.
fn length_in(p: Strand, q: Strand, window: Window) -> usize {
    let cut = cut_out(q, window);
    let mut work = vec![0; work_size(p.len(), window.length)];
    lakhido::length(lent(p), lent(cut.lend()), &mut work).expect("a window is a molecule").length
}

/// The other calls on the answered window: it carries the motif, and neither window that lacks one of its two end bases does. Without a window the molecule
/// itself does not. The window of the empty motif has no bases, and so is no molecule for the other calls.
fn held_to_the_other_calls(p: Strand, q: Strand) {
    let mut work = vec![0; work_size(p.len(), q.len())];
    let answer = lakhido::window(lent(p), lent(q), &mut work).expect("a valid pair");
    let Some(lakhido::Window { start, length }) = answer.window else {
        assert!(lakhido::length(lent(p), lent(q), &mut work).expect("a valid pair").length < p.len(), "no window: {p:?}, {q:?}");
        return;
    };
    if p.len() == 0 {
        assert_eq!((start, length), (0, 0), "the window of the empty motif: {q:?}");
        return;
    }
    let cut = cut_out(q, Window { start, length });
    let mut places = vec![0; p.len()];
    let shown = lakhido::show(lent(p), lent(cut.lend()), &mut places, &mut work).expect("a window is a molecule");
    assert_eq!(shown.length, p.len(), "the window {start}, {length} carries no embedding: {p:?}, {q:?}");
    assert!(lakhido::verify(lent(p), lent(cut.lend()), &places).expect("as many places").embeds, "{places:?}: {p:?}, {q:?}");
    assert_eq!((places[0], places[p.len() - 1] as usize), (0, length - 1), "the window {start}, {length} is not tight: {p:?}, {q:?}");
    for shorter in [Window { start: start + 1, length: length - 1 }, Window { start, length: length - 1 }] {
        let carried = 1 < length && length_in(p, q, shorter) == p.len();
        assert!(!carried, "{shorter:?} carries the motif, {start}, {length} was answered: {p:?}, {q:?}");
    }
}

#[test]
fn all_small_pairs() {
    let mut count = 0;
    for (letters, most) in direct::TWO_AND_THREE {
        let (motifs, molecules) = (direct::small_strands(letters, 0..=most), direct::small_strands(letters, 1..=most + 1));
        let mut work = vec![0; work_size(most, most + 1)];
        for (p, q) in molecules.iter().flat_map(|q| motifs.iter().map(move |p| (p.lend(), q.lend()))) {
            let expected = Ok((tightest_by_definition(p, q, longest_by_trying), fold_of(q.mates)));
            let answer = windowed(lakhido::window(lent(p), lent(q), &mut work[..work_size(p.len(), q.len())]));
            assert_eq!(answer, expected, "window: library, plain; {p:?}, {q:?}");
            count += 1;
        }
    }
    report("window on all motifs of up to 4 bases and molecules of up to 5 in two letters, of up to 3 and 4 in G, T and U", count);
    assert!(150_000 < count);
}

#[test]
fn short_pairs() {
    let mut r = seeded();
    let (mut count, mut found) = (0, 0);
    for _ in 0..rounds(20_000) {
        let n = r.between(1, 40);
        let (p, q) = make::window_pair(&mut r, n, n);
        let (p, q) = (p.lend(), q.lend());
        let answer = tightest_by_definition(p, q, rows::length);
        let spare = if r.one_in(4) { r.below(40) } else { 0 };
        window(p, q, work_size(p.len(), q.len()) + spare, Ok((answer, fold_of(q.mates))));
        held_to_the_other_calls(p, q);
        found += answer.is_some() as usize;
        count += 1;
    }
    report(&format!("window on short pairs, {found} with one"), count);
    assert!(count / 2 < found && found < count);
}

/// Pairs of up to `longest` bases, with motifs of up to `most`.
fn long(cases: usize, longest: usize, most: usize) {
    let mut r = seeded();
    let mut found = 0;
    for case in 0..rounds(cases) {
        let n = if case % 4 == 0 { longest } else { r.between(41, longest) };
        let (p, q) = make::window_pair(&mut r, n, most);
        let (p, q) = (p.lend(), q.lend());
        let size = work_size(p.len(), q.len());
        let expected = calls::window(p, q, size);
        window(p, q, size, expected);
        held_to_the_other_calls(p, q);
        found += expected.is_ok_and(|(answer, _)| answer.is_some()) as usize;
    }
    report(&format!("window on molecules of up to {longest} bases and motifs of up to {most}, {found} with one"), rounds(cases));
}

/// The tables of the motif stand in one of two arrays, the smaller for molecules of up to 160 bases and motifs of up to 120.
#[test]
fn middle_pairs() {
    long(2_000, 170, 130);
}

#[test]
fn long_pairs() {
    long(60, LONGEST, 60);
}

#[test]
fn long_motifs() {
    long(16, 1_500, 400);
    long(4, LONGEST, 500);
}

/// A strand in itself, and one half of it, in a thread with the stack that header and wrapper name. The walks nest as deep as the arcs.
#[test]
fn deepest_arcs_in_the_stack() {
    let mut r = seeded();
    let folds = [make::stem(LONGEST), make::balanced(LONGEST), make::comb(LONGEST), make::random_fold(&mut r, LONGEST, 0)];
    let count = folds.len();
    for mates in folds {
        let q = Owned { bases: make::letters(&mut r, LONGEST), mates };
        let half = cut_out(q.lend(), Window { start: LONGEST / 4, length: LONGEST / 2 });
        let call = move || {
            let (q, half) = (q.lend(), half.lend());
            let mut work = vec![0; work_size(LONGEST, LONGEST)];
            let whole = Window { start: 0, length: LONGEST };
            assert_eq!(windowed(lakhido::window(lent(q), lent(q), &mut work)), Ok((Some(whole), fold_of(q.mates))));
            let (answer, _) = windowed(lakhido::window(lent(half), lent(q), &mut work)).expect("accepted");
            assert!(answer.is_some_and(|window| window.length == LONGEST / 2 && window.start <= LONGEST / 4), "{answer:?}");
        };
        std::thread::Builder::new().stack_size(lakhido::STACK).spawn(call).expect("a thread").join().expect("accepted");
    }
    report("window in a stack of 1 MiB", 2 * count);
}
