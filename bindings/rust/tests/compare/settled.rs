//! The settled examples of document 01, and small ones of the requests (i) to (iii), (v) and (vi) of 02, on the library: the fold of a molecule, the tightest
//! window, the empty motif, batches, T and U.
use crate::direct;
use crate::plain::block;
use crate::plain::calls;
use crate::plain::strand::{self, Refused, Strand};
use crate::windows;
use crate::{lent, refused};
use lakhido::{BLOCK, Fold, Found, Matched, Reason, Verified, Window, Windowed};

fn s<'a>(bases: &'a str, mates: &'a [u16]) -> Strand<'a> {
    Strand::new(bases.as_bytes(), mates)
}

fn l<'a>(bases: &'a str, mates: &'a [u16]) -> lakhido::Strand<'a> {
    lakhido::Strand::new(bases.as_bytes(), mates)
}

/// The molecules have at most one arc, whose number is then also the depth.
#[test]
fn lengths_and_places() {
    let rows: [(Strand, Strand, usize, &[u16], usize); 9] = [
        (s("A", &[0]), s("A", &[0]), 1, &[0], 0),
        (s("GC", &[1, 0]), s("GAC", &[2, 1, 0]), 2, &[0, 2], 1),
        (s("GC", &[0, 1]), s("GAC", &[2, 1, 0]), 1, &[0], 1),
        (s("GC", &[1, 0]), s("GC", &[0, 1]), 0, &[], 0),
        (s("GC", &[0, 1]), s("GCC", &[2, 1, 0]), 2, &[0, 1], 1),
        (s("GC", &[0, 1]), s("GGC", &[2, 1, 0]), 2, &[1, 2], 1),
        (s("AGC", &[0, 2, 1]), s("AG", &[0, 1]), 1, &[0], 0),
        (s("AGC", &[0, 2, 1]), s("AGAC", &[0, 3, 2, 1]), 3, &[0, 1, 3], 1),
        (s("GGCC", &[3, 2, 1, 0]), s("GGCC", &[0, 2, 1, 3]), 0, &[], 1),
    ];
    for (p, q, found, places, arcs) in rows {
        let size = lakhido::work_size(p.len(), q.len());
        let expected = Ok((found, strand::Fold { arcs, depth: arcs }));
        direct::length(p, q, size, expected);
        let shown = direct::show(p, q, p.len(), size, expected);
        // With L = m the places of 01 are the only embedding.
        if found == p.len() {
            assert_eq!(shown.as_deref(), Some(places), "{p:?}, {q:?}");
        }
    }
}

#[test]
fn arcs_and_depth_of_check_and_add() {
    let rows: [(Strand, usize, usize); 4] =
        [(s("GAC", &[2, 1, 0]), 1, 1), (s("GGCC", &[3, 2, 1, 0]), 2, 2), (s("GCGC", &[1, 0, 3, 2]), 2, 1), (s("GAC", &[0, 1, 2]), 0, 0)];
    for (q, arcs, depth) in rows {
        assert_eq!(lakhido::check(lent(q)), Ok(Fold { arcs, depth }), "check of {q:?}");
        assert_eq!(lakhido::add(&mut [0; BLOCK], &mut [0; BLOCK], 0, lent(q)), Ok(Fold { arcs, depth }), "add of {q:?}");
    }
}

/// The motif has other numbers than the molecule, fewer or more.
#[test]
fn arcs_and_depth_of_length_and_show_are_those_of_the_molecule_not_of_the_motif() {
    let (three, one, none) = (s("GGCGCC", &[5, 2, 1, 4, 3, 0]), s("GC", &[1, 0]), s("GC", &[0, 1]));
    let rows: [(Strand, Strand, usize, Fold); 4] = [
        (one, three, 2, Fold { arcs: 3, depth: 2 }),
        (none, three, 2, Fold { arcs: 3, depth: 2 }),
        (three, one, 0, Fold { arcs: 1, depth: 1 }),
        (one, none, 0, Fold { arcs: 0, depth: 0 }),
    ];
    for (p, q, length, fold) in rows {
        let (mut places, mut work) = (vec![0; p.len()], vec![0; lakhido::work_size(p.len(), q.len())]);
        assert_eq!(lakhido::length(lent(p), lent(q), &mut work), Ok(Matched { length, fold }), "length of {p:?}, {q:?}");
        assert_eq!(lakhido::show(lent(p), lent(q), &mut places, &mut work), Ok(Matched { length, fold }), "show of {p:?}, {q:?}");
    }
}

/// The same where the places are an embedding, and where they are none.
#[test]
fn arcs_and_depth_of_verify_yes_and_of_verify_no_are_those_of_the_molecule_not_of_the_motif() {
    let (three, one, none) = (s("GGCGCC", &[5, 2, 1, 4, 3, 0]), s("GC", &[1, 0]), s("GC", &[0, 1]));
    let rows: [(Strand, Strand, &[u16], bool, Fold); 7] = [
        (one, three, &[0, 5], true, Fold { arcs: 3, depth: 2 }),
        (one, three, &[0, 4], false, Fold { arcs: 3, depth: 2 }),
        (one, three, &[0, 6], false, Fold { arcs: 3, depth: 2 }),
        (none, three, &[0, 4], true, Fold { arcs: 3, depth: 2 }),
        (none, three, &[0, 5], false, Fold { arcs: 3, depth: 2 }),
        (three, one, &[0, 1, 2, 3, 4, 5], false, Fold { arcs: 1, depth: 1 }),
        (one, none, &[0, 1], false, Fold { arcs: 0, depth: 0 }),
    ];
    for (p, q, places, embeds, fold) in rows {
        assert_eq!(lakhido::verify(lent(p), lent(q), places), Ok(Verified { embeds, fold }), "verify of {p:?}, {q:?}, {places:?}");
    }
}

/// A motif, a molecule, start and length of the tightest window, and the molecule's arcs and depth.
type WindowRow<'a> = (Strand<'a>, Strand<'a>, Option<(usize, usize)>, usize, usize);

/// The pairs of 01's table. Then: two of one length, of which the first counts; a later one that is shorter; one inside an arc; one that begins inside an arc and
/// has its right end, unbonded there; one that ends inside an arc and has its left end; a later one that does so and is shorter; one that begins inside an arc
/// and ends with its right end, behind another arc; two arcs inside a third.
#[test]
fn tightest_windows() {
    let rows: [WindowRow; 18] = [
        (s("A", &[0]), s("A", &[0]), Some((0, 1)), 0, 0),
        (s("GC", &[1, 0]), s("GAC", &[2, 1, 0]), Some((0, 3)), 1, 1),
        (s("GC", &[0, 1]), s("GAC", &[2, 1, 0]), None, 1, 1),
        (s("GC", &[1, 0]), s("GC", &[0, 1]), None, 0, 0),
        (s("GC", &[0, 1]), s("GCC", &[2, 1, 0]), Some((0, 2)), 1, 1),
        (s("GC", &[0, 1]), s("GGC", &[2, 1, 0]), Some((1, 2)), 1, 1),
        (s("AGC", &[0, 2, 1]), s("AG", &[0, 1]), None, 0, 0),
        (s("AGC", &[0, 2, 1]), s("AGAC", &[0, 3, 2, 1]), Some((0, 4)), 1, 1),
        (s("GGCC", &[3, 2, 1, 0]), s("GGCC", &[0, 2, 1, 3]), None, 1, 1),
        (s("A", &[0]), s("AA", &[0, 1]), Some((0, 1)), 0, 0),
        (s("GC", &[1, 0]), s("GACGAC", &[2, 1, 0, 5, 4, 3]), Some((0, 3)), 2, 1),
        (s("GC", &[1, 0]), s("GAACGAC", &[3, 1, 2, 0, 6, 5, 4]), Some((4, 3)), 2, 1),
        (s("GA", &[0, 1]), s("CGAAC", &[4, 1, 2, 3, 0]), Some((1, 2)), 1, 1),
        (s("AC", &[0, 1]), s("GAC", &[2, 1, 0]), Some((1, 2)), 1, 1),
        (s("GAU", &[0, 1, 2]), s("GAUC", &[3, 1, 2, 0]), Some((0, 3)), 1, 1),
        (s("GA", &[0, 1]), s("GUAGACC", &[6, 1, 2, 5, 4, 3, 0]), Some((3, 2)), 2, 2),
        (s("GCA", &[1, 0, 2]), s("AGUCUA", &[5, 3, 2, 1, 4, 0]), Some((1, 5)), 2, 2),
        (s("GC", &[1, 0]), s("GGCGCC", &[5, 2, 1, 4, 3, 0]), Some((1, 2)), 3, 2),
    ];
    for (p, q, found, arcs, depth) in rows {
        let size = lakhido::work_size(p.len(), q.len());
        let window = found.map(|(start, length)| Window { start, length });
        let answer = lakhido::window(lent(p), lent(q), &mut vec![0; size]);
        assert_eq!(answer, Ok(Windowed { window, fold: Fold { arcs, depth } }), "window of {p:?}, {q:?}");
        windows::window(p, q, size, calls::window(p, q, size));
    }
}

/// "From now on an empty motif embeds in every molecule, with L = 0 and no places. Its tightest window has start 0 and length 0."
#[test]
fn the_empty_motif_embeds_in_every_molecule() {
    let empty = l("", &[]);
    let rows: [(Strand, usize, usize); 4] =
        [(s("A", &[0]), 0, 0), (s("GAC", &[2, 1, 0]), 1, 1), (s("GGCGCC", &[5, 2, 1, 4, 3, 0]), 3, 2), (s("GCGC", &[1, 0, 3, 2]), 2, 1)];
    for (q, arcs, depth) in rows {
        let fold = Fold { arcs, depth };
        let (mut work, mut places) = (vec![0; 64 + 8 * q.len()], [7, 8, 9]);
        assert_eq!(lakhido::length(empty, lent(q), &mut work), Ok(Matched { length: 0, fold }), "length in {q:?}");
        assert_eq!(lakhido::show(empty, lent(q), &mut [], &mut work), Ok(Matched { length: 0, fold }), "show in {q:?}");
        assert_eq!(lakhido::show(empty, lent(q), &mut places, &mut work), Ok(Matched { length: 0, fold }), "show in {q:?}");
        assert_eq!(places, [7, 8, 9], "show in {q:?}");
        assert_eq!(lakhido::verify(empty, lent(q), &[]), Ok(Verified { embeds: true, fold }), "verify in {q:?}");
        assert_eq!(lakhido::verify(empty, lent(q), &[0]).map_err(refused), Err(Refused(9, 2, 0)), "verify in {q:?}");
        let window = Some(Window { start: 0, length: 0 });
        assert_eq!(lakhido::window(empty, lent(q), &mut work), Ok(Windowed { window, fold }), "window in {q:?}");
    }
}

/// "Refusal 2 remains for molecules only." Slices that differ in length are refused by 1 on either side; the work slice is that of m = 0.
#[test]
fn refusals_with_the_empty_motif() {
    let (empty, a) = (l("", &[]), l("A", &[0]));
    let rows: [(lakhido::Strand, lakhido::Strand, usize, Option<Refused>); 8] = [
        (l("", &[0]), empty, 0, Some(Refused(1, 0, 0))),
        (l("A", &[]), empty, 0, Some(Refused(1, 0, 0))),
        (empty, l("", &[0]), 0, Some(Refused(1, 1, 0))),
        (empty, empty, 0, Some(Refused(2, 1, 0))),
        (a, empty, 0, Some(Refused(2, 1, 0))),
        (empty, l("ACGU", &[2, 3, 0, 1]), 0, Some(Refused(7, 1, 1))),
        (empty, a, 71, Some(Refused(8, 2, 0))),
        (empty, a, 72, None),
    ];
    for (p, q, size, expected) in rows {
        let mut work = vec![0; size];
        assert_eq!(lakhido::length(p, q, &mut work).map_err(refused).err(), expected, "length of {p:?}, {q:?}, work {size}");
        assert_eq!(lakhido::show(p, q, &mut [], &mut work).map_err(refused).err(), expected, "show of {p:?}, {q:?}, work {size}");
        assert_eq!(lakhido::window(p, q, &mut work).map_err(refused).err(), expected, "window of {p:?}, {q:?}, work {size}");
    }
    let (mut catalog, mut cache) = ([0; BLOCK], [0; BLOCK]);
    assert_eq!(lakhido::add(&mut catalog, &mut cache, 0, empty).map_err(refused), Err(Refused(2, 1, 0)));
    for (p, size, hits, expected) in [(l("", &[0]), 0, 0, 1), (empty, 64 + 8 * 160, 0, 9), (empty, 63 + 8 * 160, 1, 8)] {
        let answer = lakhido::query(&catalog, &mut cache, p, &mut vec![0; size], &mut vec![0; hits]).map_err(refused);
        assert_eq!(answer, Err(Refused(expected, if expected == 1 { 0 } else { 2 }, 0)), "query of {p:?}, work {size}, hits {hits}");
    }
}

/// "Two bases now match when they are the same byte or both are among T and U." A motif, a molecule and L; where the motif embeds, its only places.
#[test]
fn t_and_u_match_each_other() {
    let rows: [(Strand, Strand, usize, &[u16]); 13] = [
        (s("GT", &[1, 0]), s("GAU", &[2, 1, 0]), 2, &[0, 2]),
        (s("GU", &[1, 0]), s("GAT", &[2, 1, 0]), 2, &[0, 2]),
        (s("T", &[0]), s("U", &[0]), 1, &[0]),
        (s("U", &[0]), s("T", &[0]), 1, &[0]),
        (s("T", &[0]), s("T", &[0]), 1, &[0]),
        (s("T", &[0]), s("A", &[0]), 0, &[]),
        (s("T", &[0]), s("C", &[0]), 0, &[]),
        (s("T", &[0]), s("G", &[0]), 0, &[]),
        (s("A", &[0]), s("T", &[0]), 0, &[]),
        (s("UT", &[1, 0]), s("TU", &[1, 0]), 2, &[0, 1]),
        (s("TT", &[0, 1]), s("TAU", &[2, 1, 0]), 1, &[]),
        (s("ATC", &[0, 1, 2]), s("GAUCT", &[0, 1, 2, 3, 4]), 3, &[1, 2, 3]),
        (s("TAGU", &[3, 1, 2, 0]), s("UAGT", &[3, 1, 2, 0]), 4, &[0, 1, 2, 3]),
    ];
    for (p, q, length, places) in rows {
        let size = lakhido::work_size(p.len(), q.len());
        let expected = Ok((length, strand::fold_of(q.mates)));
        direct::length(p, q, size, expected);
        let shown = direct::show(p, q, p.len(), size, expected).expect("accepted");
        windows::window(p, q, size, calls::window(p, q, size));
        if length == p.len() {
            assert_eq!(shown, places, "{p:?}, {q:?}");
            assert!(lakhido::verify(lent(p), lent(q), places).is_ok_and(|found| found.embeds), "verify of {p:?}, {q:?}");
        }
    }
}

/// "Blocks keep the letter as delivered, and the shelf still compares motifs byte by byte": keys 156 and 157, in slots 0 and 1 of two.
#[test]
fn two_spellings_are_two_entries() {
    let (mut catalog, mut cache) = (vec![0; 3 * BLOCK], vec![0; 2 * BLOCK]);
    for (d, bases) in ["GAT", "GAU", "GAC"].into_iter().enumerate() {
        lakhido::add(&mut catalog, &mut cache, d, l(bases, &[2, 1, 0])).expect("a molecule");
    }
    assert_eq!([catalog[30], catalog[BLOCK + 30]], *b"TU");
    let (mut work, mut hits) = (vec![0; lakhido::query_work_size(2)], [7; 3]);
    for (bases, searched) in [("GT", 3), ("GU", 3), ("GT", 0), ("GU", 0)] {
        let found = lakhido::query(&catalog, &mut cache, l(bases, &[1, 0]), &mut work, &mut hits);
        assert_eq!((found, hits), (Ok(Found { count: 2, searched }), [0, 1, 7]), "{bases}");
    }
    assert_eq!([cache[21], cache[BLOCK + 21]], *b"TU");
    for (bases, searched) in [("GT", 3), ("GU", 3), ("GT", 3), ("GT", 0)] {
        let found = lakhido::query(&catalog, &mut cache[BLOCK..], l(bases, &[1, 0]), &mut work, &mut hits);
        assert_eq!((found, hits), (Ok(Found { count: 2, searched }), [0, 1, 7]), "{bases} in one slot");
    }
}

#[test]
fn refusals() {
    let check = |q| lakhido::check(q).map_err(refused);
    assert_eq!(check(l("AC", &[0])), Err(Refused(1, 1, 0)));
    assert_eq!(check(l("", &[])), Err(Refused(2, 1, 0)));
    assert_eq!(check(l("AXC", &[0, 1, 2])), Err(Refused(4, 1, 1)));
    assert_eq!(check(l("ATtU", &[0, 1, 2, 3])), Err(Refused(4, 1, 2)));
    assert_eq!(check(l("A", &[1])), Err(Refused(5, 1, 0)));
    assert_eq!(check(l("AC", &[1, 1])), Err(Refused(6, 1, 0)));
    assert_eq!(check(l("ACGU", &[2, 3, 0, 1])), Err(Refused(7, 1, 1)));
    let a = l("A", &[0]);
    assert_eq!(lakhido::length(a, a, &mut [0; 135]).map_err(refused), Err(Refused(8, 2, 0)));
    assert_eq!(lakhido::length(a, a, &mut [0; 136]), Ok(Matched { length: 1, fold: Fold { arcs: 0, depth: 0 } }));
    assert_eq!(lakhido::window(a, a, &mut [0; 135]).map_err(refused), Err(Refused(8, 2, 0)));
    let found = Windowed { window: Some(Window { start: 0, length: 1 }), fold: Fold { arcs: 0, depth: 0 } };
    assert_eq!(lakhido::window(a, a, &mut [0; 136]), Ok(found));
    assert_eq!(lakhido::window(l("AX", &[0, 1]), l("", &[]), &mut []).map_err(refused), Err(Refused(4, 0, 1)));
    assert_eq!(lakhido::window(a, l("ACGU", &[2, 3, 0, 1]), &mut []).map_err(refused), Err(Refused(7, 1, 1)));
    let gc = l("GC", &[1, 0]);
    assert_eq!(lakhido::show(gc, gc, &mut [0; 1], &mut [0; 500]).map_err(refused), Err(Refused(9, 2, 0)));
    let (mut catalog, mut cache) = (vec![0; 2 * BLOCK], vec![0; 513]);
    assert_eq!(lakhido::add(&mut catalog, &mut cache, 0, a).map_err(refused), Err(Refused(10, 2, 0)));
    let mut cache = vec![0; BLOCK];
    catalog[BLOCK] = 9;
    assert_eq!(lakhido::remove(&mut catalog, &mut cache, 0).map_err(refused), Err(Refused(11, 2, 1)));
    catalog[BLOCK] = 0;
    assert_eq!(lakhido::add(&mut catalog, &mut cache, 2, a).map_err(refused), Err(Refused(12, 2, 0)));
    assert_eq!(lakhido::remove(&mut catalog, &mut cache, 0).map_err(refused), Err(Refused(14, 2, 0)));
    assert_eq!(lakhido::add(&mut catalog, &mut cache, 0, a), Ok(Fold { arcs: 0, depth: 0 }));
    assert_eq!(catalog[508..512], 1888u32.to_le_bytes(), "the checksum of A, 0");
    assert_eq!(lakhido::add(&mut catalog, &mut cache, 0, a).map_err(refused), Err(Refused(13, 2, 0)));
    let bases = "A".repeat(121);
    let mates: Vec<u16> = (0..121).collect();
    let found = lakhido::query(&catalog, &mut cache, l(&bases, &mates), &mut [0; 10_000], &mut [0; 2]);
    assert_eq!(found.map_err(refused), Err(Refused(3, 0, 0)));
}

/// A query with room for every hit: the answer, and the hits.
fn query(catalog: &[u8], cache: &mut [u8], motif: lakhido::Strand) -> (Found, Vec<u16>) {
    let (mut work, mut hits) = (vec![0; 64 * (motif.bases.len() + 1) + 8 * 160], vec![0; catalog.len() / BLOCK]);
    let found = lakhido::query(catalog, cache, motif, &mut work, &mut hits).unwrap();
    (found, hits[..found.count].to_vec())
}

#[test]
fn the_history() {
    let (mut catalog, mut cache) = (vec![0; 2 * BLOCK], vec![0; BLOCK]);
    let hairpin = Ok(Fold { arcs: 1, depth: 1 });
    assert_eq!(lakhido::add(&mut catalog, &mut cache, 0, l("GAC", &[2, 1, 0])), hairpin);
    assert_eq!(lakhido::add(&mut catalog, &mut cache, 1, l("GGC", &[2, 1, 0])), hairpin);
    let (bonded, free) = (l("GC", &[1, 0]), l("GC", &[0, 1]));
    assert_eq!(query(&catalog, &mut cache, bonded), (Found { count: 2, searched: 2 }, vec![0, 1]));
    assert_eq!(query(&catalog, &mut cache, bonded), (Found { count: 2, searched: 0 }, vec![0, 1]));
    assert_eq!(query(&catalog, &mut cache, free), (Found { count: 1, searched: 2 }, vec![1]));
    assert_eq!(query(&catalog, &mut cache, bonded), (Found { count: 2, searched: 2 }, vec![0, 1]));
    lakhido::remove(&mut catalog, &mut cache, 0).unwrap();
    assert_eq!(query(&catalog, &mut cache, bonded), (Found { count: 1, searched: 0 }, vec![1]));
}

/// "Query histories may contain it, and the hit rule covers it without an exception."
#[test]
fn a_history_with_the_empty_motif() {
    let (mut catalog, mut cache, empty) = (vec![0; 3 * BLOCK], vec![0; BLOCK], l("", &[]));
    lakhido::add(&mut catalog, &mut cache, 0, l("GAC", &[2, 1, 0])).unwrap();
    lakhido::add(&mut catalog, &mut cache, 2, l("A", &[0])).unwrap();
    assert_eq!(query(&catalog, &mut cache, empty), (Found { count: 2, searched: 2 }, vec![0, 2]));
    assert_eq!(query(&catalog, &mut cache, empty), (Found { count: 2, searched: 0 }, vec![0, 2]));
    for altered in [0, 1, 3] {
        cache[0] = altered;
        assert_eq!(query(&catalog, &mut cache, empty), (Found { count: 2, searched: 2 }, vec![0, 2]), "byte 0 of its entry is {altered}");
    }
    lakhido::remove(&mut catalog, &mut cache, 0).unwrap();
    assert_eq!(query(&catalog, &mut cache, empty), (Found { count: 1, searched: 0 }, vec![2]));
    lakhido::add(&mut catalog, &mut cache, 1, l("GGC", &[2, 1, 0])).unwrap();
    assert_eq!(query(&catalog, &mut cache, empty), (Found { count: 2, searched: 1 }, vec![1, 2]));
    assert_eq!(query(&catalog, &mut cache, l("A", &[0])), (Found { count: 1, searched: 2 }, vec![2]));
    assert_eq!(query(&catalog, &mut cache, empty), (Found { count: 2, searched: 2 }, vec![1, 2]));
}

/// "It is kept with length 0 and key 0": in slot 0 of any cache, as byte 0 = 2, byte 1 = 0, the two maps and the checksum.
#[test]
fn the_entry_of_the_empty_motif() {
    let (mut catalog, empty) = (vec![0; 12 * BLOCK], l("", &[]));
    for d in [0, 11] {
        lakhido::add(&mut catalog, &mut [0; BLOCK], d, l("A", &[0])).unwrap();
    }
    for slots in [1, 2, 64] {
        let mut expected = vec![0; slots * BLOCK];
        for (at, byte) in [(0, 2), (380, 1), (381, 8), (444, 1), (445, 8)] {
            expected[at] = byte;
        }
        let sum: u32 = 2 + 381 + 382 * 8 + 445 + 446 * 8;
        expected[508..512].copy_from_slice(&sum.to_le_bytes());
        let mut cache = vec![0; slots * BLOCK];
        query(&catalog, &mut cache, empty);
        assert!(cache == expected, "{slots} slots: {:?}", &cache[..BLOCK]);
    }
}

/// "and a motif block may have length 0": its bytes. In the catalog it is unsound.
#[test]
fn the_block_with_no_bases() {
    let mut expected = [0; BLOCK];
    (expected[0], expected[508]) = (1, 1);
    let of_none = block::molecule_block(s("", &[]));
    assert_eq!(of_none, expected);
    let mut catalog = [block::molecule_block(s("A", &[0])), of_none].concat();
    let (mut cache, unsound) = ([0; BLOCK], Refused(11, 2, 1));
    assert_eq!(lakhido::add(&mut catalog, &mut cache, 1, l("A", &[0])).map_err(refused), Err(unsound));
    assert_eq!(lakhido::remove(&mut catalog, &mut cache, 1).map_err(refused), Err(unsound));
    assert_eq!(lakhido::query(&catalog, &mut cache, l("", &[]), &mut [0; 64 + 8 * 160], &mut [0; 2]).map_err(refused), Err(unsound));
}

/// The motif buffer of a batch.
fn family(motifs: &[lakhido::Strand]) -> Vec<u8> {
    motifs.iter().flat_map(|&motif| lakhido::motif_block(motif).expect("a short motif")).collect()
}

/// A batch with work and room enough: counts and searched numbers, the number read, and the hits, 9 where none was written.
fn batch(catalog: &[u8], cache: &mut [u8], motifs: &[lakhido::Strand]) -> (Vec<(usize, usize)>, usize, Vec<u16>) {
    let (mut work, mut hits) = (vec![0; lakhido::query_work_size(120)], vec![9; motifs.len() * catalog.len() / BLOCK]);
    let found = lakhido::batch(catalog, cache, &family(motifs), &mut work, &mut hits).unwrap();
    (found.queries().iter().map(|query| (query.count, query.searched)).collect(), found.read, hits)
}

/// "Counts, hits, searched numbers and the shelf afterwards equal those of single queries in that order": 01's story of two molecules and one slot.
#[test]
fn the_history_in_batches() {
    let (mut catalog, mut cache) = (vec![0; 2 * BLOCK], vec![0; BLOCK]);
    lakhido::add(&mut catalog, &mut cache, 0, l("GAC", &[2, 1, 0])).unwrap();
    lakhido::add(&mut catalog, &mut cache, 1, l("GGC", &[2, 1, 0])).unwrap();
    let (bonded, free) = (l("GC", &[1, 0]), l("GC", &[0, 1]));
    let story = batch(&catalog, &mut cache, &[bonded, bonded, free, bonded]);
    assert_eq!(story, (vec![(2, 2), (2, 0), (1, 2), (2, 2)], 2, vec![0, 1, 0, 1, 1, 9, 0, 1]));
    lakhido::remove(&mut catalog, &mut cache, 0).unwrap();
    assert_eq!(batch(&catalog, &mut cache, &[bonded]), (vec![(1, 0)], 0, vec![1, 9]));
    assert_eq!(query(&catalog, &mut cache, bonded), (Found { count: 1, searched: 0 }, vec![1]));
    assert_eq!(batch(&catalog, &mut cache, &[l("", &[]), free]), (vec![(1, 1), (1, 1)], 1, vec![1, 9, 1, 9]));
}

/// "The answer also has the number of molecules read: those held numbers that at least one of these queries would search." A and C have the slots 1 and 3 of
/// 64; A is known of molecule 0, C of none. A searches 2 and 3, C searches 0, 2 and 3: three are read.
#[test]
fn read_counts_each_molecule_once() {
    let (mut catalog, mut cache) = (vec![0; 4 * BLOCK], vec![0; 64 * BLOCK]);
    let (a, c) = (l("A", &[0]), l("C", &[0]));
    lakhido::add(&mut catalog, &mut cache, 0, a).unwrap();
    assert_eq!(query(&catalog, &mut cache, a), (Found { count: 1, searched: 1 }, vec![0]));
    lakhido::add(&mut catalog, &mut cache, 2, c).unwrap();
    lakhido::add(&mut catalog, &mut cache, 3, l("AC", &[1, 0])).unwrap();
    let first = batch(&catalog, &mut cache, &[a, c, a]);
    assert_eq!(first, (vec![(2, 2), (2, 3), (2, 0)], 3, vec![0, 3, 9, 9, 2, 3, 9, 9, 0, 3, 9, 9]));
    assert_eq!(batch(&catalog, &mut cache, &[c, a]), (vec![(2, 0), (2, 0)], 0, vec![2, 3, 9, 9, 0, 3, 9, 9]));
}

/// "It refuses with 15 a motif buffer that isn't 1 to 16 whole blocks or has an unsound or empty block, place 0 for its size, else the lowest such block,
/// side 0, after 11; then 3, place the lowest such motif's index, then 9 and 8."
#[test]
fn refusals_of_batches() {
    let (bases, mates) = ("A".repeat(160), (0..160).collect::<Vec<u16>>());
    let of = |n: usize| block::molecule_block(s(&bases[..n], &mates[..n]));
    let (none, mut unsound) = ([0; BLOCK], of(2));
    unsound[2] = 1;
    let blocks = |list: &[[u8; BLOCK]]| list.concat();
    let rows: [(Vec<u8>, usize, usize, Option<Refused>); 14] = [
        (Vec::new(), 0, 0, Some(Refused(15, 0, 0))),
        (of(2)[..511].to_vec(), 0, 0, Some(Refused(15, 0, 0))),
        ([of(2).as_slice(), &[0]].concat(), 0, 0, Some(Refused(15, 0, 0))),
        (of(2).repeat(17), 0, 0, Some(Refused(15, 0, 0))),
        (blocks(&[none, of(2)]), 0, 0, Some(Refused(15, 0, 0))),
        (blocks(&[of(121), of(2), none, unsound]), 0, 0, Some(Refused(15, 0, 2))),
        (blocks(&[of(121), unsound, of(2), none]), 0, 0, Some(Refused(15, 0, 1))),
        (blocks(&[of(120), of(121), of(160)]), 0, 0, Some(Refused(3, 0, 1))),
        (blocks(&[of(160)]), 0, 0, Some(Refused(3, 0, 0))),
        (blocks(&[of(120), of(0)]), 0, 3, Some(Refused(9, 2, 0))),
        (blocks(&[of(2), of(120), of(0)]), 64 * 121 + 8 * 160 - 1, 6, Some(Refused(8, 2, 0))),
        (blocks(&[of(2), of(120), of(0)]), 64 * 121 + 8 * 160, 6, None),
        (blocks(&[of(0)]), 64 + 8 * 160 - 1, 2, Some(Refused(8, 2, 0))),
        (of(0).repeat(16), 64 + 8 * 160, 32, None),
    ];
    for (k, (motifs, size, room, expected)) in rows.into_iter().enumerate() {
        let (mut work, mut hits) = (vec![0; size], vec![0; room]);
        let answer = lakhido::batch(&[0; 2 * BLOCK], &mut [0; BLOCK], &motifs, &mut work, &mut hits).map_err(refused);
        assert_eq!(answer.err(), expected, "row {k}");
        let unsound = lakhido::batch(&[[0; BLOCK], unsound].concat(), &mut [0; BLOCK], &motifs, &mut work, &mut hits).map_err(refused);
        assert_eq!(unsound, Err(Refused(11, 2, 1)), "row {k}");
        let no_block = lakhido::batch(&[0; 2 * BLOCK], &mut [], &motifs, &mut work, &mut hits).map_err(refused);
        assert_eq!(no_block, Err(Refused(10, 2, 0)), "row {k}");
    }
}

#[test]
fn reasons_by_number() {
    assert!(Reason::ALL.iter().map(|reason| reason.number()).eq(1..=15));
    let refusal = lakhido::check(l("AXC", &[0, 1, 2])).unwrap_err();
    assert_eq!(refusal.to_string(), "refused (4): molecule: not a letter at 1");
    let batch = |motifs: &[u8]| lakhido::batch(&[0; BLOCK], &mut [0; BLOCK], motifs, &mut [], &mut []).unwrap_err().to_string();
    let long = family(&[l("A", &[0]), l(&"A".repeat(121), &(0..121).collect::<Vec<u16>>())]);
    assert_eq!(batch(&long), "refused (3): motif: too long, number 1 of the batch");
    let empty = [long, vec![0; BLOCK]].concat();
    assert_eq!(batch(&empty), "refused (15): motif: buffer not whole blocks, none, or too many, or an unsound or empty block 2");
}
