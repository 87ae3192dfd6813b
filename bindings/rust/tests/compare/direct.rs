//! Check, length, show and verify against the plain implementation: exhaustively on small inputs, at random on short and long ones.
use crate::catalog::Shop;
use crate::guard::Guarded;
use crate::make;
use crate::plain::block::Owned;
use crate::plain::calls::{self, LONGEST, work_size};
use crate::plain::embedding::{longest_by_trying, verify_linear};
use crate::plain::strand::{Fold, Refused, Strand, fold_of};
use crate::random::{Random, rounds, seeded};
use crate::{folded, lent, refused, report};
use std::ops::RangeInclusive;

/// Inputs between guards, so that a write to them or beside them shows.
pub struct Lent {
    bases: Guarded<u8>,
    mates: Guarded<u16>,
}

impl Lent {
    pub fn new(s: Strand) -> Self {
        Lent { bases: Guarded::new(s.bases), mates: Guarded::new(s.mates) }
    }

    pub fn strand(&self) -> lakhido::Strand<'_> {
        lakhido::Strand::new(self.bases.content(), self.mates.content())
    }

    pub fn kept(&self) -> bool {
        self.bases.kept() && self.mates.kept()
    }
}

pub fn check(s: Strand) {
    let input = Lent::new(s);
    let answer = lakhido::check(input.strand()).map(folded).map_err(refused);
    assert_eq!(answer, calls::check(s), "check: library, plain; {s:?}");
    assert!(input.kept(), "check wrote to its input: {s:?}");
}

/// What a work slice holds before a call: no answer may depend on it.
pub fn work_of(size: usize) -> Vec<u16> {
    (0..size).map(|i| (i as u16).wrapping_mul(40503) ^ size as u16).collect()
}

/// The answer of length and show.
fn matched(answer: Result<lakhido::Matched, lakhido::Refusal>) -> Result<(usize, Fold), Refused> {
    answer.map(|found| (found.length, folded(found.fold))).map_err(refused)
}

/// `expected` is the length with the molecule's fold where the call is accepted.
pub fn length(p: Strand, q: Strand, size: usize, expected: Result<(usize, Fold), Refused>) {
    let (pl, ql) = (Lent::new(p), Lent::new(q));
    let mut work = Guarded::new(&work_of(size));
    let answer = matched(lakhido::length(pl.strand(), ql.strand(), work.lend()));
    assert_eq!(answer, expected, "length: library, plain; {p:?}, {q:?}, work {size}");
    assert!(pl.kept() && ql.kept() && work.edges_kept(), "length wrote where it must not: {p:?}, {q:?}, work {size}");
    assert!(answer.is_ok() || work.kept(), "a refused length wrote to work: {p:?}, {q:?}, work {size}");
}

/// Gives the places of an accepted call.
pub fn show(p: Strand, q: Strand, room: usize, size: usize, expected: Result<(usize, Fold), Refused>) -> Option<Vec<u16>> {
    let (pl, ql) = (Lent::new(p), Lent::new(q));
    let mut work = Guarded::new(&work_of(size));
    let before: Vec<u16> = (0..room as u16).map(|i| i ^ 0x5a5a).collect();
    let mut places = Guarded::new(&before);
    let answer = matched(lakhido::show(pl.strand(), ql.strand(), places.lend(), work.lend()));
    let input = || format!("{p:?}, {q:?}, places {room}, work {size}");
    assert_eq!(answer, expected, "show: library, plain; {}", input());
    assert!(pl.kept() && ql.kept() && work.edges_kept() && places.edges_kept(), "show wrote where it must not: {}", input());
    let Ok((found, _)) = answer else {
        assert!(work.kept() && places.kept(), "a refused show wrote: {}", input());
        return None;
    };
    let written = places.content();
    let prefix = Strand::new(&p.bases[..found], &p.mates[..found]);
    assert!(verify_linear(prefix, q, &written[..found]), "show's places {:?} are no embedding: {}", &written[..found], input());
    assert_eq!(written[found..], before[found..], "show wrote past its {found} places: {}", input());
    Some(written[..found].to_vec())
}

pub fn verify(p: Strand, q: Strand, places: &[u16]) {
    let (pl, ql) = (Lent::new(p), Lent::new(q));
    let lent = Guarded::new(places);
    let answer = lakhido::verify(pl.strand(), ql.strand(), lent.content());
    let answer = answer.map(|found| (found.embeds, folded(found.fold))).map_err(refused);
    assert_eq!(answer, calls::verify(p, q, places), "verify: library, plain; {p:?}, {q:?}, &{places:?}");
    assert!(pl.kept() && ql.kept() && lent.kept(), "verify wrote: {p:?}, {q:?}, &{places:?}");
}

/// All nested mates of n bases.
fn folds(n: usize) -> Vec<Vec<u16>> {
    fn fill(mates: &mut Vec<u16>, open: &mut Vec<usize>, n: usize, out: &mut Vec<Vec<u16>>) {
        let i = mates.len();
        if i == n {
            if open.is_empty() {
                out.push(mates.clone());
            }
            return;
        }
        mates.push(i as u16);
        fill(mates, open, n, out);
        open.push(i);
        fill(mates, open, n, out);
        open.pop();
        if let Some(l) = open.pop() {
            (mates[l], mates[i]) = (i as u16, l as u16);
            fill(mates, open, n, out);
            (mates[l], mates[i]) = (l as u16, i as u16);
            open.push(l);
        }
        mates.pop();
    }
    let mut out = Vec::new();
    fill(&mut Vec::new(), &mut Vec::new(), n, &mut out);
    out
}

/// All words of n letters.
fn words(alphabet: &[u8], n: usize) -> Vec<Vec<u8>> {
    (0..n).fold(vec![Vec::new()], |shorter, _| shorter.iter().flat_map(|w| alphabet.iter().map(move |&b| [w.as_slice(), &[b]].concat())).collect())
}

/// All nested strands of these lengths in these letters.
pub fn small_strands(letters: &[u8], lengths: RangeInclusive<usize>) -> Vec<Owned> {
    lengths
        .flat_map(|n| {
            let words = words(letters, n);
            folds(n).into_iter().flat_map(move |mates| words.clone().into_iter().map(move |bases| Owned { bases, mates: mates.clone() }))
        })
        .collect()
}

/// Letters for all small pairs, and the most bases of a motif: two that do not match, and three of which two do.
pub const TWO_AND_THREE: [(&[u8], usize); 2] = [(b"GC", 4), (b"GTU", 3)];

#[test]
fn all_small_pairs() {
    let mut count = 0;
    for (letters, most) in TWO_AND_THREE {
        let (motifs, molecules) = (small_strands(letters, 0..=most), small_strands(letters, 1..=most + 1));
        let mut work = vec![0; work_size(most, most + 1)];
        for (p, q) in molecules.iter().flat_map(|q| motifs.iter().map(move |p| (p.lend(), q.lend()))) {
            let expected = Ok((longest_by_trying(p, q), fold_of(q.mates)));
            let size = work_size(p.len(), q.len());
            let answer = matched(lakhido::length(lent(p), lent(q), &mut work[..size]));
            assert_eq!(answer, expected, "length: library, plain; {p:?}, {q:?}");
            show(p, q, p.len(), size, expected);
            count += 2;
        }
    }
    report("all motifs of up to 4 bases and molecules of up to 5 in two letters, of up to 3 and 4 in G, T and U", count);
    assert!(300_000 < count);
}

#[test]
fn all_small_checks() {
    let mut count = 0;
    for n in 0..=4 {
        let words = words(b"ATUXt", n);
        let mut mates = vec![0; n];
        loop {
            for bases in &words {
                check(Strand::new(bases, &mates));
                count += 1;
            }
            let Some(at) = mates.iter().position(|&k| (k as usize) < n) else { break };
            mates[at] += 1;
            mates[..at].fill(0);
        }
    }
    report("all strands of up to 4 bases, mates up to 4", count);
    assert!(50_000 < count);
}

/// Check and add on every fold, whose letters are of no matter.
#[test]
fn all_small_folds() {
    let mut count = 0;
    for n in 1..=12 {
        let bases = vec![b'G'; n];
        for mates in folds(n) {
            let s = Strand::new(&bases, &mates);
            check(s);
            Shop::empty(1, 1).add(0, s).expect("a fold");
            count += 1;
        }
    }
    report("check and add on all folds of up to 12 bases", 2 * count);
    // The sum of the Motzkin numbers of 1 to 12, which count the folds of so many bases.
    assert_eq!(count, 24_870);
}

#[test]
fn all_small_places() {
    let (motifs, molecules) = (small_strands(b"TU", 0..=3), small_strands(b"UC", 1..=3));
    let mut count = 0;
    for p in &motifs {
        for q in &molecules {
            for code in 0..4usize.pow(p.bases.len() as u32) {
                let places: Vec<u16> = (0..p.bases.len() as u32).map(|j| (code / 4usize.pow(j) % 4) as u16).collect();
                verify(p.lend(), q.lend(), &places);
                count += 1;
            }
        }
    }
    report("all places for motifs of up to 3 bases in T and U and molecules of up to 3 in U and C", count);
    assert!(50_000 < count);
}

/// One random pair: all four calls. Gives the number of comparisons.
fn pair(r: &mut Random, p: Strand, q: Strand) -> usize {
    check(q);
    let spare = if r.one_in(4) { r.below(40) } else { 0 };
    let size = work_size(p.len(), q.len()) + spare;
    let expected = calls::length(p, q, size);
    length(p, q, size, expected);
    let room = p.len() + if r.one_in(4) { r.below(9) } else { 0 };
    let mut places = show(p, q, room, size, expected).expect("a valid pair");
    while places.len() < p.len() {
        places.push(r.below(q.len() + 2) as u16);
    }
    verify(p, q, &places);
    spoil(r, &mut places, q.len());
    verify(p, q, &places);
    5
}

/// Changes one of the places in a molecule of n bases; where there is none, they become one too many.
fn spoil(r: &mut Random, places: &mut Vec<u16>, n: usize) {
    if places.is_empty() {
        places.push(r.below(n) as u16);
        return;
    }
    let at = r.below(places.len());
    places[at] = match r.below(4) {
        0 => r.pick(&[n as u16, 65535]),
        1 => places[at].wrapping_add(1),
        2 => places[at].wrapping_sub(1),
        _ => r.below(n) as u16,
    };
}

#[test]
fn short_pairs() {
    let mut r = seeded();
    let mut count = 0;
    for _ in 0..rounds(12_000) {
        let n = r.between(1, 60);
        let (p, q) = make::pair(&mut r, n, n + 2);
        count += pair(&mut r, p.lend(), q.lend());
    }
    report("check, length, show, verify on short pairs", count);
}

#[test]
fn long_pairs() {
    let mut r = seeded();
    let mut count = 0;
    for case in 0..rounds(60) {
        let n = if case % 6 == 0 { LONGEST } else { r.between(61, 1500) };
        let most = if case % 12 == 0 { n } else { 200.min(n) };
        let (p, q) = make::pair(&mut r, n, most);
        count += pair(&mut r, p.lend(), q.lend());
    }
    report("check, length, show, verify on long pairs", count);
}

/// Length and show of a strand with itself in a thread with the stack that header and wrapper name. The calls nest as deep as the arcs.
#[test]
fn deepest_arcs_in_the_stack() {
    let mut r = seeded();
    let folds = [make::stem(LONGEST), make::balanced(LONGEST), make::comb(LONGEST), make::random_fold(&mut r, LONGEST, 0)];
    let count = folds.len();
    for mates in folds {
        let bases = make::letters(&mut r, LONGEST);
        let expected = Ok((LONGEST, fold_of(&mates)));
        let call = move || {
            let strand = lakhido::Strand::new(&bases, &mates);
            let (mut places, mut work) = (vec![0; LONGEST], vec![0; work_size(LONGEST, LONGEST)]);
            assert_eq!(matched(lakhido::length(strand, strand, &mut work)), expected);
            assert_eq!(matched(lakhido::show(strand, strand, &mut places, &mut work)), expected);
        };
        std::thread::Builder::new().stack_size(lakhido::STACK).spawn(call).expect("a thread").join().expect("accepted");
    }
    report("length and show in a stack of 1 MiB", 2 * count);
}
