//! Histories from zeroed buffers: add, remove, query and batch, refused ones among them, with at most one alteration in each cache block between one accepted
//! call and the next; every answer against the plain calls on bytes and against the reference model, which sees no bytes and says of an accepted add no more
//! than that it is done.
use crate::batch::refused_motifs;
use crate::blocks::{self, written};
use crate::catalog::{Shop, pool};
use crate::make;
use crate::plain::block::{BLOCK, CHECKSUM, ENTRY, HIT, MOLECULE, Owned, SEARCHED};
use crate::plain::calls::work_size;
use crate::plain::model::{Found, Model};
use crate::plain::motifs;
use crate::random::{Random, rounds, seeded};
use crate::report;

struct History {
    shop: Shop,
    model: Model,
    b: usize,
    s: usize,
    /// The cache blocks altered since the last accepted call.
    altered: Vec<bool>,
    /// The steps so far, for the report of a difference.
    steps: Vec<String>,
    compared: usize,
    saved: usize,
    /// The accepted batches, and those of them that the cache answered alone.
    batches: usize,
    saved_batches: usize,
    /// The alterations that changed a byte of the entry with no bases, and those of them that changed its byte 0.
    changed_empty: (usize, usize),
}

impl History {
    fn new(b: usize, s: usize) -> Self {
        let steps = vec![format!("B = {b}, S = {s}")];
        let (shop, model) = (Shop::empty(b, s), Model::new(b, s));
        History { shop, model, b, s, altered: vec![false; s], steps, compared: 0, saved: 0, batches: 0, saved_batches: 0, changed_empty: (0, 0) }
    }

    fn told(&self) -> String {
        self.steps.join("\n")
    }

    fn same<T: PartialEq + std::fmt::Debug, E: PartialEq + std::fmt::Debug>(&mut self, answer: Result<T, E>, model: Result<T, E>) {
        assert_eq!(answer, model, "library, reference model; the history:\n{}", self.told());
        self.compared += 1;
        if answer.is_ok() {
            self.altered.fill(false);
        }
    }

    fn add(&mut self, d: usize, molecule: &Owned) {
        self.steps.push(format!("add {d} {molecule:?}"));
        let answer = self.shop.add(d, molecule.lend()).map(drop);
        let model = self.model.add(d, molecule.lend());
        self.same(answer, model);
    }

    fn remove(&mut self, d: usize) {
        self.steps.push(format!("remove {d}"));
        let answer = self.shop.remove(d);
        let model = self.model.remove(d);
        self.same(answer, model);
    }

    fn query(&mut self, motif: &Owned, size: usize, room: usize) {
        self.steps.push(format!("query {motif:?}, work {size}, hits {room}"));
        let answer = self.shop.query(motif.lend(), size, room).map(|(hits, searched)| Found { hits, searched });
        if let Ok(found) = &answer {
            self.saved += (found.searched == 0 && !found.hits.is_empty()) as usize;
        }
        let model = self.model.query(motif.lend(), size, room);
        self.same(answer, model);
    }

    fn batch(&mut self, motifs: &[u8], size: usize, room: usize) {
        self.steps.push(format!("batch {}, work {size}, hits {room}", written(motifs)));
        let answer = self.shop.batch(motifs, size, room);
        if let Ok((found, read)) = &answer {
            self.batches += 1;
            self.saved_batches += (*read == 0 && found.iter().any(|of_motif| !of_motif.hits.is_empty())) as usize;
        }
        let model = self.model.batch(motifs, size, room);
        self.same(answer, model);
    }

    fn alter(&mut self, r: &mut Random) {
        let slot = r.below(self.s);
        if std::mem::replace(&mut self.altered[slot], true) {
            return;
        }
        let offset = match r.below(5) {
            0 => r.below(2),
            1 => r.between(CHECKSUM, BLOCK - 1),
            2 => r.pick(&[SEARCHED, HIT]) + r.below(self.b.div_ceil(8)),
            _ => r.below(BLOCK),
        };
        let old = self.shop.cache[BLOCK * slot + offset];
        let value = match r.below(4) {
            0 => old,
            1 => old ^ (1 << r.below(8)),
            2 => 0,
            _ => r.below(256) as u8,
        };
        self.set(slot, offset, value);
    }

    /// The alteration of one byte of a block that has not been altered since the last accepted call, and so is sound.
    fn set(&mut self, slot: usize, offset: usize, value: u8) {
        self.steps.push(format!("alter block {slot}, byte {offset}: {value}"));
        let block = &mut self.shop.cache[BLOCK * slot..BLOCK * (slot + 1)];
        if block[..2] == [ENTRY.kind, 0] && block[offset] != value {
            self.changed_empty.0 += 1;
            self.changed_empty.1 += (offset == 0) as usize;
        }
        block[offset] = value;
        self.model.alter(slot, offset, value);
    }
}

/// One step: mostly calls that are accepted, some that are not.
fn step(r: &mut Random, h: &mut History, molecules: &[Owned], motifs: &[Owned]) {
    let d = if r.one_in(20) { h.b + r.below(3) } else { r.below(h.b) };
    match r.below(12) {
        0 | 1 => h.alter(r),
        2 | 3 => {
            let at = r.below(molecules.len());
            let mut molecule = molecules[at].clone();
            if r.one_in(8) {
                let row = r.between(1, 7) as u32;
                make::damage(r, &mut molecule, row, MOLECULE.most);
            }
            h.add(d, &molecule);
        }
        4 => h.remove(d),
        5 | 6 => batch(r, h, motifs),
        _ => {
            let at = r.below(motifs.len());
            let mut motif = motifs[at].clone();
            if r.one_in(12) {
                let row = r.between(1, 7) as u32;
                make::damage(r, &mut motif, row, ENTRY.most);
            }
            let full = work_size(motif.bases.len(), MOLECULE.most);
            let size = if r.one_in(16) { full - r.between(1, 3) } else { full + r.below(3) };
            let room = if r.one_in(16) { h.b - 1 } else { h.b + r.below(3) };
            h.query(&motif, size, room);
        }
    }
}

/// A batch, one time in two straight behind an alteration.
fn batch(r: &mut Random, h: &mut History, motifs: &[Owned]) {
    if r.one_in(2) {
        h.alter(r);
    }
    let k = if r.one_in(10) { motifs::MOST } else { r.between(1, 4) };
    let bytes = if r.one_in(8) { refused_motifs(r, motifs) } else { blocks::motifs(r, k, motifs) };
    let full = work_size(motifs::longest(&bytes), MOLECULE.most);
    let size = if r.one_in(16) { full - r.between(1, 3) } else { full + r.below(3) };
    let all = motifs::count(&bytes) * h.b;
    let room = if r.one_in(16) { all.saturating_sub(1) } else { all + r.below(3) };
    h.batch(&bytes, size, room);
}

#[test]
fn random_histories() {
    let mut r = seeded();
    let (mut compared, mut saved, mut changed, mut changed_first) = (0, 0, 0, 0);
    let (mut batches, mut saved_batches) = (0, 0);
    for case in 0..rounds(1_500) {
        let b = match case % 50 {
            0 => r.between(1, 512),
            1..=9 => r.between(1, 40),
            _ => r.between(1, 5),
        };
        let s = if case % 7 == 0 { r.between(1, 64) } else { r.between(1, 4) };
        let longest = if case % 20 == 0 { MOLECULE.most } else { 16 };
        let (molecules, motifs) = pool(&mut r, 5, longest);
        let mut h = History::new(b, s);
        for _ in 0..40 {
            step(&mut r, &mut h, &molecules, &motifs);
        }
        compared += h.compared;
        saved += h.saved;
        batches += h.batches;
        saved_batches += h.saved_batches;
        changed += h.changed_empty.0;
        changed_first += h.changed_empty.1;
    }
    report(&format!("histories, {batches} accepted batches, {changed} changes of the entry with no bases, {changed_first} of its byte 0"), compared);
    assert!(30_000 < compared && compared / 100 < saved, "{compared} compared, {saved} answered from the cache alone");
    assert!(4_000 < batches && batches / 100 < saved_batches, "{batches} accepted batches, {saved_batches} answered from the cache alone");
    assert!(0 < changed_first && changed_first < changed, "{changed} changes of the entry with no bases, {changed_first} of its byte 0");
}

/// The empty motif is queried, one byte of its entry set, and it is queried again: only where the byte's value changed is anything searched.
#[test]
fn every_byte_of_the_entry_with_no_bases() {
    let mut r = seeded();
    let (molecules, _) = pool(&mut r, 2, 16);
    let empty = Owned { bases: Vec::new(), mates: Vec::new() };
    let mut compared = 0;
    for offset in 0..BLOCK {
        for flip in [0, 1, 2, 4, 8, 16, 32, 64, 128] {
            let mut h = History::new(3, 2);
            for d in [0, 2] {
                h.add(d, &molecules[d / 2]);
            }
            h.query(&empty, work_size(0, MOLECULE.most), 3);
            h.set(0, offset, h.shop.cache[offset] ^ flip);
            h.query(&empty, work_size(0, MOLECULE.most), 3);
            assert_eq!((h.changed_empty.0, h.saved), if flip == 0 { (0, 1) } else { (1, 0) }, "byte {offset}, bits {flip}");
            compared += h.compared;
        }
    }
    report("every byte of the entry with no bases", compared);
}
