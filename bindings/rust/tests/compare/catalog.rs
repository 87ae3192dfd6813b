//! Add, remove and query against the plain implementation, call by call, on catalogs and caches of any content: sound, lying, damaged. Batches have their
//! tests in batch.rs.
use crate::blocks::{self, written};
use crate::guard::Guarded;
use crate::make;
use crate::plain::block::{self, BLOCK, CHECKSUM, ENTRY, MOLECULE, MOTIF, Owned};
use crate::plain::calls::{self, work_size};
use crate::plain::model::Found;
use crate::plain::strand::{Fold, Refused, Strand};
use crate::random::{Random, rounds, seeded};
use crate::{folded, lent, refused, report};

/// A catalog and a cache.
#[derive(Clone)]
pub struct Shop {
    pub catalog: Vec<u8>,
    pub cache: Vec<u8>,
}

impl std::fmt::Debug for Shop {
    fn fmt(&self, f: &mut std::fmt::Formatter) -> std::fmt::Result {
        write!(f, "catalog {}, cache {}", written(&self.catalog), written(&self.cache))
    }
}

impl Shop {
    pub fn empty(blocks: usize, slots: usize) -> Self {
        Shop { catalog: vec![0; BLOCK * blocks], cache: vec![0; BLOCK * slots] }
    }

    /// Compares bytes after a call and keeps them.
    fn take_over(&mut self, before: &Shop, catalog: Guarded<u8>, cache: Guarded<u8>, input: &dyn std::fmt::Debug) {
        assert!(catalog.edges_kept() && cache.edges_kept(), "written beside a buffer: {input:?} on {before:?}");
        assert_eq!(written(catalog.content()), written(&self.catalog), "catalog: library, plain; {input:?} on {before:?}");
        assert_eq!(written(cache.content()), written(&self.cache), "cache: library, plain; {input:?} on {before:?}");
    }

    /// Gives the fold of the molecule.
    pub fn add(&mut self, d: usize, molecule: Strand) -> Result<Fold, Refused> {
        let (before, input) = (self.clone(), ("add", d, molecule));
        let (mut catalog, mut cache) = (Guarded::new(&self.catalog), Guarded::new(&self.cache));
        let (bases, mates) = (Guarded::new(molecule.bases), Guarded::new(molecule.mates));
        let ours = lakhido::add(catalog.lend(), cache.lend(), d, lakhido::Strand::new(bases.content(), mates.content()));
        let ours = ours.map(folded).map_err(refused);
        let answer = calls::add(&mut self.catalog, &mut self.cache, d, molecule);
        assert_eq!(ours, answer, "library, plain; {input:?} on {before:?}");
        assert!(bases.kept() && mates.kept(), "add wrote to the molecule: {input:?} on {before:?}");
        assert!(ours.is_ok() || catalog.kept() && cache.kept(), "a refused call wrote: {input:?} on {before:?}");
        self.take_over(&before, catalog, cache, &input);
        answer
    }

    pub fn remove(&mut self, d: usize) -> Result<(), Refused> {
        let (before, input) = (self.clone(), ("remove", d));
        let (mut catalog, mut cache) = (Guarded::new(&self.catalog), Guarded::new(&self.cache));
        let ours = lakhido::remove(catalog.lend(), cache.lend(), d).map_err(refused);
        let answer = calls::remove(&mut self.catalog, &mut self.cache, d);
        assert_eq!(ours, answer, "library, plain; {input:?} on {before:?}");
        assert!(ours.is_ok() || catalog.kept() && cache.kept(), "a refused call wrote: {input:?} on {before:?}");
        self.take_over(&before, catalog, cache, &input);
        answer
    }

    /// Gives the hits and the number searched.
    pub fn query(&mut self, motif: Strand, size: usize, room: usize) -> Result<(Vec<u16>, usize), Refused> {
        let (before, input) = (self.clone(), ("query", motif, "work", size, "hits", room));
        let (catalog, mut cache) = (Guarded::new(&self.catalog), Guarded::new(&self.cache));
        let old: Vec<u16> = (0..room as u16).map(|i| i ^ 0x3c3c).collect();
        let (mut work, mut hits) = (Guarded::new(&vec![0xabcd; size]), Guarded::new(&old));
        let ours = lakhido::query(catalog.content(), cache.lend(), lent(motif), work.lend(), hits.lend());
        let ours = ours.map(|found| (found.count, found.searched)).map_err(refused);
        let mut expected = old.clone();
        let answer = calls::query(&self.catalog, &mut self.cache, motif, size, &mut expected);
        assert_eq!(ours, answer, "count and searched: library, plain; {input:?} on {before:?}");
        assert_eq!(hits.content(), expected, "hits: library, plain; {input:?} on {before:?}");
        assert!(work.edges_kept() && hits.edges_kept() && catalog.kept(), "query wrote where it must not: {input:?} on {before:?}");
        assert!(ours.is_ok() || work.kept() && hits.kept() && cache.kept(), "a refused call wrote: {input:?} on {before:?}");
        self.take_over(&before, catalog, cache, &input);
        answer.map(|(count, searched)| (expected[..count].to_vec(), searched))
    }

    /// Gives for each motif the hits and the number searched, and the number of molecules read.
    pub fn batch(&mut self, motifs: &[u8], size: usize, room: usize) -> Result<(Vec<Found>, usize), Refused> {
        let (before, input) = (self.clone(), ("batch", written(motifs), "work", size, "hits", room));
        let (catalog, mut cache, lent) = (Guarded::new(&self.catalog), Guarded::new(&self.cache), Guarded::new(motifs));
        let old: Vec<u16> = (0..room as u16).map(|i| i ^ 0x3c3c).collect();
        let (mut work, mut hits) = (Guarded::new(&vec![0xabcd; size]), Guarded::new(&old));
        let ours = lakhido::batch(catalog.content(), cache.lend(), lent.content(), work.lend(), hits.lend());
        let ours = ours.map(told).map_err(refused);
        let mut expected = old.clone();
        let answer = calls::batch(&self.catalog, &mut self.cache, motifs, size, &mut expected);
        assert_eq!(ours, answer, "counts and searched, read: library, plain; {input:?} on {before:?}");
        assert_eq!(hits.content(), expected, "hits: library, plain; {input:?} on {before:?}");
        assert!(lent.kept() && work.edges_kept() && hits.edges_kept() && catalog.kept(), "batch wrote where it must not: {input:?} on {before:?}");
        assert!(ours.is_ok() || work.kept() && hits.kept() && cache.kept(), "a refused call wrote: {input:?} on {before:?}");
        self.take_over(&before, catalog, cache, &input);
        let list = |t: usize, count: usize| expected[t * self.catalog.len() / BLOCK..][..count].to_vec();
        let of_motif = |(t, (count, searched))| Found { hits: list(t, count), searched };
        answer.map(|(found, read)| (found.into_iter().enumerate().map(of_motif).collect(), read))
    }
}

/// What a batch of the library answers, as the plain one.
pub fn told(batch: lakhido::Batch) -> (Vec<(usize, usize)>, usize) {
    (batch.queries().iter().map(|found| (found.count, found.searched)).collect(), batch.read)
}

/// A few molecules, and motifs that have to do with them; of two motifs the later is now and then the former in another spelling.
pub fn pool(r: &mut Random, count: usize, longest: usize) -> (Vec<Owned>, Vec<Owned>) {
    let molecules: Vec<Owned> = (0..count)
        .map(|_| {
            let n = r.between(1, longest);
            make::strand(r, n)
        })
        .collect();
    let mut motifs: Vec<Owned> = (0..count)
        .map(|_| {
            let from = r.below(count);
            let most = if r.one_in(4) { ENTRY.most } else { 12 };
            let m = make::motif_length(r, molecules[from].bases.len().min(most));
            make::motif(r, &molecules[from], m)
        })
        .collect();
    for t in (1..count).step_by(2) {
        if r.one_in(2) {
            motifs[t] = make::respell(r, &motifs[t - 1]);
        }
    }
    (molecules, motifs)
}

/// A number of blocks, mostly small.
pub fn blocks(r: &mut Random, most: usize) -> usize {
    match r.below(200) {
        0 => most,
        1..=20 => r.between(1, 40.min(most)),
        _ => r.between(1, 4.min(most)),
    }
}

#[test]
fn calls_on_any_content() {
    let mut r = seeded();
    let (mut count, mut accepted) = (0, 0);
    for case in 0..rounds(6_000) {
        let longest = if case % 10 == 0 { MOLECULE.most } else { 20 };
        let (molecules, motifs) = pool(&mut r, 3, longest);
        let (b, s) = (blocks(&mut r, 512), blocks(&mut r, 64));
        let spoilt = r.pick(&[0, 0, 4 * b, 3]);
        let catalog = blocks::catalog(&mut r, b, &molecules, spoilt);
        let numbers = if r.one_in(3) { 512 } else { b };
        let mut shop = Shop { cache: blocks::cache(&mut r, s, numbers, &motifs), catalog };
        for _ in 0..4 {
            let k = r.below(3);
            let d = if r.one_in(8) { b } else { r.below(b) };
            let answer = match r.below(5) {
                0 => shop.add(d, molecules[k].lend()).map(drop),
                1 => shop.remove(d),
                _ => {
                    let motif = motifs[k].lend();
                    let size = work_size(motif.len(), MOLECULE.most);
                    let room = b + if r.one_in(3) { r.below(9) } else { 0 };
                    shop.query(motif, size, room).map(drop)
                }
            };
            accepted += answer.is_ok() as usize;
            count += 1;
            if r.one_in(3) {
                let at = r.below(s);
                blocks::spoil_any(&mut r, &mut shop.cache[BLOCK * at..BLOCK * (at + 1)]);
            }
        }
    }
    report("add, remove, query on any content", count);
    assert!(count / 3 < accepted, "only {accepted} of {count} accepted");
}

/// Runs a test on a block with each byte set to each value, the checksum left or, for the bytes before it, made right again. Gives the number of runs.
fn every_byte(original: &[u8; BLOCK], test: fn(&[u8; BLOCK])) -> usize {
    let mut count = 0;
    for at in 0..BLOCK {
        for value in 0..=255 {
            let mut changed = *original;
            changed[at] = value;
            test(&changed);
            count += 1;
            if at < CHECKSUM {
                block::seal(&mut changed);
                test(&changed);
                count += 1;
            }
        }
    }
    count
}

/// A motif block, the second of a batch with no room for hits, which is refused with 9 behind 15 and 3.
fn passes_as_motif(b: &[u8; BLOCK]) {
    let expected = match b[1] as usize {
        _ if block::empty(b) || !block::sound(&MOTIF, b) => Refused(15, 0, 1),
        n if ENTRY.most < n => Refused(3, 0, 1),
        _ => Refused(9, 2, 0),
    };
    let mut motifs = [0; 2 * BLOCK];
    motifs[..BLOCK].copy_from_slice(&block::molecule_block(Strand::new(b"A", &[0])));
    motifs[BLOCK..].copy_from_slice(b);
    let answer = lakhido::batch(&[0; BLOCK], &mut [0; BLOCK], &motifs, &mut [], &mut []).map_err(refused);
    assert_eq!(answer, Err(expected), "library, plain; a batch of A and of {}", written(b));
}

/// A molecule block: a remove past the end is refused with 12 after the soundness pass, with 11 by it.
fn passes_as_molecule(b: &[u8; BLOCK]) {
    let expected = if block::sound(&MOLECULE, b) { Refused(12, 2, 0) } else { Refused(11, 2, 0) };
    let answer = lakhido::remove(&mut b.clone(), &mut [0; BLOCK], 1).map_err(refused);
    assert_eq!(answer, Err(expected), "library, plain; remove 1 in {}", written(b));
}

/// An entry in slot 0: a query of A, whose slot is 1 of 2, keeps it or zeroes it.
fn passes_as_entry(b: &[u8; BLOCK]) {
    let expected = if block::sound(&ENTRY, b) { *b } else { [0; BLOCK] };
    let mut cache = [0; 2 * BLOCK];
    cache[..BLOCK].copy_from_slice(b);
    let found = lakhido::query(&[0; BLOCK], &mut cache, lakhido::Strand::new(b"A", &[0]), &mut [0; 64 * 2 + 8 * 160], &mut [0]);
    assert_eq!(found, Ok(lakhido::Found { count: 0, searched: 0 }));
    assert!(cache[..BLOCK] == expected, "the library leaves {}, of the entry {}", written(&cache[..BLOCK]), written(b));
}

#[test]
fn every_byte_of_a_block() {
    let mut r = seeded();
    let mut count = 0;
    for n in [0, 1, r.between(2, MOLECULE.most - 1), MOLECULE.most] {
        let s = make::strand(&mut r, n);
        count += every_byte(&block::molecule_block(s.lend()), passes_as_molecule);
        count += every_byte(&block::molecule_block(s.lend()), passes_as_motif);
    }
    for n in [0, 1, r.between(2, ENTRY.most - 1), ENTRY.most] {
        let s = make::strand(&mut r, n);
        count += every_byte(&blocks::entry(&mut r, &s, 512), passes_as_entry);
    }
    count += every_byte(&block::entry_block(Strand::new(&[], &[]), std::iter::empty()), passes_as_entry);
    report("every byte of a block", count);
}
