//! Request (vi) of document 02 on the library alone: a motif and a molecule give the same answers in every spelling of T and U, blocks keep the letter as
//! delivered, and two spellings of a motif are two entries of the cache.
use crate::make;
use crate::plain::block::{BLOCK, ENTRY, MOLECULE, Owned};
use crate::plain::calls::{LONGEST, key, work_size};
use crate::random::{Random, rounds, seeded};
use crate::{lent, report};
use lakhido::{Found, Matched, Verified, Windowed};

/// U in the place of each T, or T in that of each U.
fn spelled_with(letter: u8, s: &Owned) -> Owned {
    Owned { bases: s.bases.iter().map(|&base| if matches!(base, b'T' | b'U') { letter } else { base }).collect(), mates: s.mates.clone() }
}

/// The strand as it is, with T alone, with U alone, and in one more spelling.
fn spellings(r: &mut Random, s: &Owned) -> [Owned; 4] {
    [s.clone(), spelled_with(b'T', s), spelled_with(b'U', s), make::respell(r, s)]
}

/// Length, window, and of these places verify.
fn asked(p: &Owned, q: &Owned, places: &[u16]) -> (Matched, Windowed, Verified) {
    let (p, q) = (lent(p.lend()), lent(q.lend()));
    let mut work = vec![0; work_size(p.bases.len(), q.bases.len())];
    let length = lakhido::length(p, q, &mut work).expect("a valid pair");
    let window = lakhido::window(p, q, &mut work).expect("a valid pair");
    (length, window, lakhido::verify(p, q, places).expect("as many places as bases"))
}

/// The places that show writes, the last of them again for those that it does not.
fn shown(p: &Owned, q: &Owned) -> (usize, Vec<u16>) {
    let mut work = vec![0; work_size(p.bases.len(), q.bases.len())];
    let mut places = vec![q.bases.len() as u16 - 1; p.bases.len()];
    let found = lakhido::show(lent(p.lend()), lent(q.lend()), &mut places, &mut work).expect("a valid pair");
    (found.length, places)
}

/// One pair in sixteen spellings: one length, one window, one answer of verify for the places of each show, which are an embedding where the motif embeds.
fn one_answer(r: &mut Random, p: &Owned, q: &Owned) -> bool {
    let (motifs, molecules) = (spellings(r, p), spellings(r, q));
    let (length, places) = shown(p, q);
    let expected = asked(p, q, &places);
    assert_eq!((expected.0.length, expected.2.embeds), (length, length == p.bases.len()), "{p:?}, {q:?}");
    for (p, q) in motifs.iter().flat_map(|p| molecules.iter().map(move |q| (p, q))) {
        assert_eq!(asked(p, q, &places), expected, "{p:?}, {q:?}, {places:?}");
        let (again, places) = shown(p, q);
        assert_eq!((again, asked(p, q, &places)), (length, expected), "{p:?}, {q:?}, {places:?}");
    }
    length == p.bases.len()
}

#[test]
fn of_pairs() {
    let mut r = seeded();
    let mut whole = 0;
    for case in 0..rounds(3_000) {
        let n = if case % 300 == 0 { r.between(161, LONGEST) } else { r.between(1, 60) };
        let (p, q) = make::pair(&mut r, n, n.min(100));
        whole += one_answer(&mut r, &p, &q) as usize;
    }
    report(&format!("pairs in sixteen spellings, {whole} of them whole motifs"), 32 * rounds(3_000));
    assert!(rounds(3_000) / 10 < whole && whole < rounds(3_000));
}

/// A catalog of these molecules, each of which a block keeps as delivered.
fn catalog_of(molecules: &[Owned]) -> Vec<u8> {
    let mut catalog = vec![0; BLOCK * molecules.len()];
    for (d, q) in molecules.iter().enumerate() {
        lakhido::add(&mut catalog, &mut [0; BLOCK], d, lent(q.lend())).expect("a molecule");
        assert_eq!(catalog[BLOCK * d + MOLECULE.bases..][..q.bases.len()], q.bases, "the block of {q:?}");
    }
    catalog
}

/// A query, the hits of which are handed back, and the letters of the entry compared.
fn queried(catalog: &[u8], cache: &mut [u8], p: &Owned) -> (Found, Vec<u16>) {
    let (mut work, mut hits) = (vec![0; work_size(p.bases.len(), MOLECULE.most)], vec![0; catalog.len() / BLOCK]);
    let found = lakhido::query(catalog, cache, lent(p.lend()), &mut work, &mut hits).expect("accepted");
    hits.truncate(found.count);
    let slot = BLOCK * (key(p.lend()) % (cache.len() / BLOCK));
    assert_eq!(cache[slot + ENTRY.bases..][..p.bases.len()], p.bases, "the entry of {p:?}");
    (found, hits)
}

/// The number that a query searches, whose hits must be these.
fn searched(catalog: &[u8], cache: &mut [u8], p: &Owned, expected: &[u16]) -> usize {
    let (found, hits) = queried(catalog, cache, p);
    assert_eq!(hits, expected, "{p:?}");
    found.searched
}

/// Two spellings of a motif have the same hits. Each searches for itself: in slots of their own both are kept, in one slot each replaces the other.
#[test]
fn of_queries() {
    let mut r = seeded();
    let (mut apart, mut together, mut hits_seen) = (0, 0, 0);
    for _ in 0..rounds(1_500) {
        let (b, slots, n) = (r.between(1, 6), r.pick(&[1, 2, 3, 64]), r.between(1, MOLECULE.most));
        let q = make::strand(&mut r, n);
        let m = make::motif_length(&mut r, n.min(20));
        let p = make::taken_out(&mut r, &q, m);
        let other = make::respell(&mut r, &p);
        let molecules: Vec<Owned> = (0..b).map(|d| if d % 3 == 2 { make::strand(&mut r, n) } else { make::respell(&mut r, &q) }).collect();
        let (catalog, mut cache) = (catalog_of(&molecules), vec![0; BLOCK * slots]);
        let (found, hits) = queried(&catalog, &mut cache, &p);
        assert!(found.searched == b && hits.first() == Some(&0), "{p:?}, {molecules:?}");
        let mut ask = |motif: &Owned| searched(&catalog, &mut cache, motif, &hits);
        hits_seen += hits.len();
        if other.bases == p.bases {
            assert_eq!(ask(&other), 0, "{p:?}");
            continue;
        }
        let one_slot = key(p.lend()) % slots == key(other.lend()) % slots;
        let again = if one_slot { b } else { 0 };
        assert_eq!([ask(&other), ask(&other), ask(&p), ask(&other)], [b, 0, again, again], "{p:?}, {other:?}, {slots} slots");
        together += one_slot as usize;
        apart += !one_slot as usize;
    }
    report(&format!("queries in two spellings, {apart} in slots of their own and {together} in one, with {hits_seen} hits"), 5 * rounds(1_500));
    assert!(100 < apart && 100 < together);
}

/// A batch of a motif in several spellings: the same list for each.
#[test]
fn of_batches() {
    let mut r = seeded();
    for _ in 0..rounds(500) {
        let (b, slots, n) = (r.between(1, 6), r.pick(&[1, 2, 3, 64]), r.between(1, 60));
        let q = make::strand(&mut r, n);
        let m = make::motif_length(&mut r, n.min(20));
        let p = make::taken_out(&mut r, &q, m);
        let molecules: Vec<Owned> = (0..b).map(|_| make::respell(&mut r, &q)).collect();
        let catalog = catalog_of(&molecules);
        let motifs: Vec<u8> = spellings(&mut r, &p).iter().flat_map(|p| lakhido::motif_block(lent(p.lend())).expect("a short motif")).collect();
        let (mut cache, mut work, mut hits) = (vec![0; BLOCK * slots], vec![0; work_size(m, MOLECULE.most)], vec![0; 4 * b]);
        let batch = lakhido::batch(&catalog, &mut cache, &motifs, &mut work, &mut hits).expect("accepted");
        let all: Vec<u16> = (0..b as u16).collect();
        assert!(batch.read == b && hits.chunks(b).all(|list| list == all), "{hits:?}: {p:?} in {molecules:?}");
    }
    report("batches of a motif in four spellings", rounds(500));
}
