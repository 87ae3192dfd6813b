//! The reference model of histories: molecules by number, and for each slot nothing or a motif with a set of numbers. It sees the calls'
//! arguments and the alterations, and no block and no answer.
use super::block::{self, BLOCK, ENTRY, MOLECULE, Owned};
use super::calls::{key, work_size};
use super::motifs;
use super::strand::{self, NEITHER, Refused, Strand};
use super::table::Table;
use std::collections::BTreeSet;

pub struct Model {
    molecules: Vec<Option<Owned>>,
    slots: Vec<Option<(Owned, BTreeSet<usize>)>>,
}

/// What is compared of an accepted query, and for each motif of an accepted batch: the hits, rising (with them their count), and the number searched.
#[derive(PartialEq, Eq, Debug)]
pub struct Found {
    pub hits: Vec<u16>,
    pub searched: usize,
}

fn owned(s: Strand) -> Owned {
    Owned { bases: s.bases.to_vec(), mates: s.mates.to_vec() }
}

fn embeds(motif: Strand, molecule: &Owned) -> bool {
    Table::new(motif, molecule.lend()).length() == motif.len()
}

impl Model {
    pub fn new(b: usize, s: usize) -> Self {
        Model { molecules: vec![None; b], slots: vec![None; s] }
    }

    fn held(&self) -> BTreeSet<usize> {
        (0..self.molecules.len()).filter(|&d| self.molecules[d].is_some()).collect()
    }

    /// The row 12, then 13 or 14.
    fn judge_number(&self, d: usize, held: bool, number: u32) -> Result<(), Refused> {
        if d >= self.molecules.len() {
            return Err(Refused(12, NEITHER, 0));
        }
        if self.molecules[d].is_some() == held {
            return Err(Refused(number, NEITHER, 0));
        }
        Ok(())
    }

    pub fn add(&mut self, d: usize, molecule: Strand) -> Result<(), Refused> {
        self.judge_number(d, true, 13)?;
        strand::judge(molecule, strand::MOLECULE, MOLECULE.most).map_or(Ok(()), Err)?;
        self.molecules[d] = Some(owned(molecule));
        Ok(())
    }

    pub fn remove(&mut self, d: usize) -> Result<(), Refused> {
        self.judge_number(d, false, 14)?;
        self.molecules[d] = None;
        for (_, numbers) in self.slots.iter_mut().flatten() {
            numbers.remove(&d);
        }
        Ok(())
    }

    pub fn query(&mut self, motif: Strand, work: usize, hits: usize) -> Result<Found, Refused> {
        strand::judge(motif, strand::MOTIF, ENTRY.most).map_or(Ok(()), Err)?;
        self.judge_slices(motif.len(), work, 1, hits)?;
        Ok(self.queried(motif).0)
    }

    /// "Each a single call that the machine runs as these queries, the number read being compared too."
    pub fn batch(&mut self, motifs: &[u8], work: usize, hits: usize) -> Result<(Vec<Found>, usize), Refused> {
        motifs::bad(motifs).or_else(|| motifs::too_long(motifs)).map_or(Ok(()), Err)?;
        self.judge_slices(motifs::longest(motifs), work, motifs::count(motifs), hits)?;
        let (mut found, mut read) = (Vec::new(), BTreeSet::new());
        for motif in motifs::held(motifs).into_iter().flatten() {
            let (of_motif, searched) = self.queried(motif.lend());
            found.push(of_motif);
            read.extend(searched);
        }
        Ok((found, read.len()))
    }

    /// The row 9, then 8: for some motifs, the longest of m bases.
    fn judge_slices(&self, m: usize, work: usize, motifs: usize, hits: usize) -> Result<(), Refused> {
        if hits < motifs * self.molecules.len() {
            return Err(Refused(9, NEITHER, 0));
        }
        if work < work_size(m, MOLECULE.most) {
            return Err(Refused(8, NEITHER, 0));
        }
        Ok(())
    }

    /// What an accepted query answers, and the numbers that it searches.
    fn queried(&mut self, motif: Strand) -> (Found, BTreeSet<usize>) {
        let held = self.held();
        let hits = held.iter().filter(|&&d| self.molecules[d].as_ref().is_some_and(|q| embeds(motif, q))).map(|&d| d as u16).collect();
        let slot = key(motif) % self.slots.len();
        let searched: BTreeSet<usize> = match &self.slots[slot] {
            Some((kept, numbers)) if kept.lend() == motif => held.difference(numbers).copied().collect(),
            _ => held.clone(),
        };
        self.slots[slot] = Some((owned(motif), held));
        (Found { hits, searched: searched.len() }, searched)
    }

    /// The block that the rules give to a slot.
    fn block(&self, slot: usize) -> [u8; BLOCK] {
        let Some((motif, numbers)) = &self.slots[slot] else { return [0; BLOCK] };
        let hit = |d: usize| self.molecules[d].as_ref().is_some_and(|q| embeds(motif.lend(), q));
        block::entry_block(motif.lend(), numbers.iter().map(|&d| (d, hit(d))))
    }

    /// One byte of one block of the cache is set.
    pub fn alter(&mut self, slot: usize, offset: usize, value: u8) {
        if self.block(slot)[offset] != value {
            self.slots[slot] = None;
        }
    }
}
