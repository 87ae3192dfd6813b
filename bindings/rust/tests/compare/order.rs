//! The order of the refusals: for each call every pair of rows that can apply to one input, and random sets of them.
use crate::batch;
use crate::blocks;
use crate::catalog::{Shop, pool};
use crate::direct;
use crate::make;
use crate::plain::block::{BLOCK, ENTRY, MOLECULE, Owned, molecule_block, sound};
use crate::plain::calls::{self, LONGEST, work_size};
use crate::plain::motifs;
use crate::plain::strand::Refused;
use crate::random::{Random, rounds, seeded};
use crate::report;
use crate::windows;

/// A row with its side.
type Label = (u32, u32);

const MOTIF: u32 = 0;
const MOLECULE_SIDE: u32 = 1;

/// The damage by which a motif has no bases. No row refuses it: "Refusal 2 remains for molecules only" (02, (iii)).
const NO_MOTIF_BASES: Label = (2, MOTIF);

fn strand_labels(side: u32) -> Vec<Label> {
    (1..=7).map(|row| (row, side)).collect()
}

fn other_labels(rows: &[u32]) -> Vec<Label> {
    rows.iter().map(|&row| (row, 2)).collect()
}

/// The rows of one side among labels.
fn of_side(labels: &[Label], side: u32) -> Vec<u32> {
    labels.iter().filter(|l| l.1 == side).map(|l| l.0).collect()
}

/// Without bases there is no letter and no length to be too long; and mates alone, which row 1 refuses, are not asked for here.
fn apart(a: Label, b: Label) -> bool {
    a.1 == b.1 && a.1 < 2 && (a.0 == 2 && 2 < b.0 || b.0 == 2 && 2 < a.0)
}

/// Runs a call on inputs damaged by each pair of labels, until both rows applied and at least `turns` times, and by random sets of labels. The call gives the
/// rows that applied. Row 2 of a motif must not be among them: the plain implementation's own guard.
fn every_pair(name: &str, labels: &[Label], never: &[(Label, Label)], turns: usize, mut call: impl FnMut(&mut Random, &[Label]) -> Vec<Refused>) {
    let mut r = seeded();
    let (turns, mut count) = (rounds(turns), 0);
    let mut run = |r: &mut Random, chosen: &[Label]| {
        count += 1;
        let rows: Vec<Label> = call(r, chosen).iter().map(|row| (row.0, row.1)).collect();
        assert!(!rows.contains(&NO_MOTIF_BASES), "{name}: the plain rows refuse a motif without bases by 2");
        chosen.iter().all(|label| *label == NO_MOTIF_BASES || rows.contains(label))
    };
    for &a in labels {
        for &b in labels {
            let never = apart(a, b) || never.contains(&(a, b)) || never.contains(&(b, a));
            let (mut both, mut tries) = (never, 0);
            while tries < turns || !both {
                assert!(tries < turns + 1_000, "{name}: no input with the rows {a:?} and {b:?} (number, side)");
                both |= run(&mut r, &[a, b]);
                tries += 1;
            }
        }
    }
    for _ in 0..turns * labels.len() {
        let some: Vec<Label> = labels.iter().copied().filter(|_| r.one_in(4)).collect();
        run(&mut r, &some);
    }
    report(&format!("order of refusals, {name}"), count);
}

/// A motif and a molecule, damaged by the labels of their sides.
fn pair(r: &mut Random, labels: &[Label], most: usize) -> (Owned, Owned) {
    let (n, m) = (r.between(8, 24), r.between(6, 8));
    let mut q = make::strand(r, n);
    let mut p = make::motif(r, &q, m);
    make::damage_by(r, &mut p, &of_side(labels, MOTIF), most);
    make::damage_by(r, &mut q, &of_side(labels, MOLECULE_SIDE), most);
    (p, q)
}

/// The lengths of a slice: as asked, or too short where the row is chosen.
fn room(r: &mut Random, labels: &[Label], row: u32, least: usize) -> usize {
    if labels.contains(&(row, 2)) { least.saturating_sub(r.between(1, 3)) } else { least }
}

fn sizes(labels: &[Label], r: &mut Random, p: &Owned, n: usize) -> usize {
    room(r, labels, 8, work_size(p.bases.len(), n))
}

#[test]
fn of_check() {
    every_pair("check", &strand_labels(MOLECULE_SIDE), &[], 60, |r, labels| {
        let (_, q) = pair(r, labels, LONGEST);
        direct::check(q.lend());
        calls::all(calls::check_rows(q.lend()))
    });
}

#[test]
fn of_length() {
    let labels = [strand_labels(MOTIF), strand_labels(MOLECULE_SIDE), other_labels(&[8])].concat();
    every_pair("length", &labels, &[], 6, |r, labels| {
        let (p, q) = pair(r, labels, LONGEST);
        let (p, q, size) = (p.lend(), q.lend(), sizes(labels, r, &p, q.bases.len()));
        direct::length(p, q, size, calls::length(p, q, size));
        calls::all(calls::length_rows(p, q, size))
    });
}

#[test]
fn of_window() {
    let labels = [strand_labels(MOTIF), strand_labels(MOLECULE_SIDE), other_labels(&[8])].concat();
    every_pair("window", &labels, &[], 6, |r, labels| {
        let (p, q) = pair(r, labels, LONGEST);
        let (p, q, size) = (p.lend(), q.lend(), sizes(labels, r, &p, q.bases.len()));
        windows::window(p, q, size, calls::window(p, q, size));
        calls::all(calls::length_rows(p, q, size))
    });
}

#[test]
fn of_show() {
    let labels = [strand_labels(MOTIF), strand_labels(MOLECULE_SIDE), other_labels(&[8, 9])].concat();
    every_pair("show", &labels, &[(NO_MOTIF_BASES, (9, 2))], 6, |r, labels| {
        let (p, q) = pair(r, labels, LONGEST);
        let (p, q, size) = (p.lend(), q.lend(), sizes(labels, r, &p, q.bases.len()));
        let places = room(r, labels, 9, p.len());
        let rows = calls::all(calls::show_rows(p, q, places, size));
        let expected = rows.first().map_or_else(|| calls::length(p, q, size), |&first| Err(first));
        direct::show(p, q, places, size, expected);
        rows
    });
}

#[test]
fn of_verify() {
    let labels = [strand_labels(MOTIF), strand_labels(MOLECULE_SIDE), other_labels(&[9])].concat();
    every_pair("verify", &labels, &[], 12, |r, labels| {
        let (p, q) = pair(r, labels, LONGEST);
        let (p, q) = (p.lend(), q.lend());
        let wrong = if p.len() == 0 || r.one_in(2) { p.len() + 1 } else { p.len() - 1 };
        let size = if labels.contains(&(9, 2)) { wrong } else { p.len() };
        let places: Vec<u16> = (0..size).map(|_| r.below(q.len() + 1) as u16).collect();
        direct::verify(p, q, &places);
        calls::all(calls::verify_rows(p, q, size))
    });
}

/// A catalog and a cache with a molecule in block 0, block 1 empty, and the last block unsound or a buffer of wrong length where the labels say so.
fn shop(r: &mut Random, labels: &[Label]) -> Shop {
    let (molecules, motifs) = pool(r, 3, 20);
    let b = r.between(3, 6);
    let mut catalog = blocks::catalog(r, b, &molecules, 0);
    catalog[..BLOCK].copy_from_slice(&molecule_block(molecules[0].lend()));
    catalog[BLOCK..2 * BLOCK].fill(0);
    let slots = r.between(1, 3);
    let mut cache = blocks::cache(r, slots, b, &motifs);
    if labels.contains(&(11, 2)) {
        let at = BLOCK * r.between(2, b - 1);
        catalog[at..at + BLOCK].copy_from_slice(&molecule_block(molecules[1].lend()));
        while sound(&MOLECULE, &catalog[at..at + BLOCK]) {
            blocks::spoil(r, &MOLECULE, &mut catalog[at..at + BLOCK]);
        }
    }
    if labels.contains(&(10, 2)) {
        match r.below(6) {
            0 => catalog.push(0),
            1 => drop(catalog.pop()),
            2 => catalog.resize(BLOCK * 513, 0),
            3 => cache.resize(BLOCK * 65, 0),
            4 => cache.clear(),
            _ => cache.push(7),
        }
    }
    Shop { catalog, cache }
}

/// A number that is held, free, or no block.
fn number(r: &mut Random, labels: &[Label], shop: &Shop, held: bool) -> usize {
    if labels.contains(&(12, 2)) {
        return r.pick(&[shop.catalog.len() / BLOCK, 513, 65536, usize::MAX]).max(shop.catalog.len() / BLOCK);
    }
    if held { 0 } else { 1 }
}

#[test]
fn of_add() {
    let labels = [other_labels(&[10, 11, 12, 13]), strand_labels(MOLECULE_SIDE)].concat();
    every_pair("add", &labels, &[((12, 2), (13, 2))], 12, |r, labels| {
        let mut shop = shop(r, labels);
        let (_, q) = pair(r, labels, MOLECULE.most);
        let d = number(r, labels, &shop, labels.contains(&(13, 2)));
        let rows = calls::all(calls::add_rows(&shop.catalog, &shop.cache, d, q.lend()));
        assert_eq!(shop.add(d, q.lend()).err(), rows.first().copied());
        rows
    });
}

#[test]
fn of_remove() {
    every_pair("remove", &other_labels(&[10, 11, 12, 14]), &[], 60, |r, labels| {
        let mut shop = shop(r, labels);
        let d = number(r, labels, &shop, !labels.contains(&(14, 2)));
        let rows = calls::all(calls::remove_rows(&shop.catalog, &shop.cache, d));
        assert_eq!(shop.remove(d).err(), rows.first().copied());
        rows
    });
}

#[test]
fn of_query() {
    let labels = [other_labels(&[8, 9, 10, 11]), strand_labels(MOTIF)].concat();
    every_pair("query", &labels, &[], 12, |r, labels| {
        let mut shop = shop(r, labels);
        let (p, _) = pair(r, labels, ENTRY.most);
        let size = sizes(labels, r, &p, MOLECULE.most);
        let hits = room(r, labels, 9, shop.catalog.len() / BLOCK);
        let rows = calls::all(calls::query_rows(&shop.catalog, &shop.cache, p.lend(), size, hits));
        assert_eq!(shop.query(p.lend(), size, hits).err(), rows.first().copied());
        rows
    });
}

/// A motif buffer; where the labels say so, with a motif that is too long, a block without a motif, or a length that no buffer has.
fn motif_buffer(r: &mut Random, labels: &[Label]) -> Vec<u8> {
    let (_, pool) = pool(r, 3, 20);
    let k = r.between(2, 5);
    let mut bytes = blocks::motifs(r, k, &pool);
    let mut at: Vec<usize> = (0..k).collect();
    let mut block = |r: &mut Random| BLOCK * at.swap_remove(r.below(at.len()));
    if labels.contains(&(3, MOTIF)) {
        let long = block(r);
        bytes[long..long + BLOCK].copy_from_slice(&batch::long_motif(r));
    }
    if labels.contains(&(15, MOTIF)) {
        let wrong = block(r);
        match r.below(5) {
            0 => drop(bytes.pop()),
            1 => bytes.push(1),
            2 => bytes = bytes.repeat(motifs::MOST),
            3 => bytes[wrong..wrong + BLOCK].fill(0),
            _ => batch::damage_motif(r, &mut bytes[wrong..wrong + BLOCK]),
        }
    }
    bytes
}

#[test]
fn of_batch() {
    let labels = [other_labels(&[8, 9, 10, 11]), vec![(15, MOTIF), (3, MOTIF)]].concat();
    every_pair("batch", &labels, &[], 60, |r, labels| {
        let mut shop = shop(r, labels);
        let motifs = motif_buffer(r, labels);
        let size = room(r, labels, 8, work_size(motifs::longest(&motifs), MOLECULE.most));
        let hits = room(r, labels, 9, motifs::count(&motifs) * (shop.catalog.len() / BLOCK));
        let rows = calls::all(calls::batch_rows(&shop.catalog, &shop.cache, &motifs, size, hits));
        assert_eq!(shop.batch(&motifs, size, hits).err(), rows.first().copied());
        rows
    });
}

#[test]
fn of_lengths() {
    // Strands and buffers at the limits: the last that is accepted and the first that is not.
    let mut r = seeded();
    for most in [MOLECULE.most, ENTRY.most, LONGEST] {
        for n in [0, 1, most - 1, most, most + 1] {
            let s = make::strand(&mut r, n);
            direct::check(s.lend());
            let mut shop = Shop::empty(2, 1);
            assert_eq!(shop.add(1, s.lend()).is_ok(), (1..=MOLECULE.most).contains(&n));
            let found = shop.query(s.lend(), work_size(n, MOLECULE.most), 2);
            assert_eq!(found.is_ok(), n <= ENTRY.most);
            if let Some(motif) = lakhido::motif_block(lakhido::Strand::new(&s.bases, &s.mates)) {
                let found = shop.batch(&motif, work_size(n, MOLECULE.most), 2);
                assert_eq!(found.is_ok(), n <= ENTRY.most);
            }
        }
    }
    for k in [0, 1, motifs::MOST, motifs::MOST + 1] {
        let bytes = molecule_block(make::strand(&mut r, 5).lend()).repeat(k);
        let found = Shop::empty(2, 1).batch(&bytes, work_size(5, MOLECULE.most), 2 * k);
        assert_eq!(found.is_ok(), (1..=motifs::MOST).contains(&k));
    }
    for (b, s) in [(1, 1), (512, 64), (513, 1), (1, 65), (0, 1), (1, 0)] {
        let mut shop = Shop::empty(b, s);
        let q = make::strand(&mut r, 20);
        let accepted = (1..=512).contains(&b) && (1..=64).contains(&s);
        assert_eq!(shop.add(0, q.lend()).is_ok(), accepted);
        assert_eq!(shop.add(b.saturating_sub(1), q.lend()).is_ok(), accepted && 1 < b);
        let p = make::taken_out(&mut r, &q, 5);
        let found = shop.query(p.lend(), work_size(5, MOLECULE.most), b);
        assert_eq!(found.is_ok(), accepted);
        if let Ok((hits, searched)) = found {
            assert_eq!(hits.len(), searched);
        }
        let found = shop.batch(&molecule_block(p.lend()), work_size(5, MOLECULE.most), b);
        assert_eq!(found.is_ok(), accepted);
        assert_eq!(shop.remove(0).is_ok(), accepted);
    }
}
