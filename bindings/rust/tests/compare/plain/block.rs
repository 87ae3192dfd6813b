//! Blocks of 512 bytes: checksum, soundness, encoding.
use super::strand::{self, Strand, judge};

pub const BLOCK: usize = 512;
const MOLECULE_BASES: usize = 160;
const MOTIF_BASES: usize = 120;

/// Where a kind of block has its content.
pub struct Layout {
    pub kind: u8,
    /// Of the strand that it holds: a molecule, or a motif, which may have no bases.
    pub side: u32,
    pub most: usize,
    pub bases: usize,
    pub mates: usize,
    /// What follows the mates, up to the checksum, is maps.
    pub maps: usize,
}

/// A motif handed in: "motifs as molecule blocks", and "a motif block may have length 0" (02, (v) and (iii)).
pub const MOTIF: Layout = Layout { side: strand::MOTIF, ..MOLECULE };
pub const MOLECULE: Layout = Layout { kind: 1, side: strand::MOLECULE, most: MOLECULE_BASES, bases: 28, mates: 188, maps: 508 };
pub const ENTRY: Layout = Layout { kind: 2, side: strand::MOTIF, most: MOTIF_BASES, bases: 20, mates: 140, maps: 380 };
pub const SEARCHED: usize = 380;
pub const HIT: usize = 444;
pub const CHECKSUM: usize = 508;

/// A decoded strand.
#[derive(Clone, PartialEq, Eq, Debug)]
pub struct Owned {
    pub bases: Vec<u8>,
    pub mates: Vec<u16>,
}

impl Owned {
    pub fn lend(&self) -> Strand<'_> {
        Strand::new(&self.bases, &self.mates)
    }
}

pub fn checksum(block: &[u8]) -> u32 {
    (1..).zip(&block[..CHECKSUM]).map(|(i, &b)| i * b as u32).sum()
}

pub fn seal(block: &mut [u8]) {
    let sum = checksum(block);
    block[CHECKSUM..].copy_from_slice(&sum.to_le_bytes());
}

pub fn empty(block: &[u8]) -> bool {
    block.iter().all(|&b| b == 0)
}

fn number(bytes: &[u8], at: usize) -> u16 {
    u16::from_le_bytes([bytes[at], bytes[at + 1]])
}

/// The strand of a block that is not empty and whose length is in range.
pub fn decode(layout: &Layout, block: &[u8]) -> Owned {
    let n = block[1] as usize;
    Owned { bases: block[layout.bases..layout.bases + n].to_vec(), mates: (0..n).map(|i| number(block, layout.mates + 2 * i)).collect() }
}

fn zero(bytes: &[u8]) -> bool {
    bytes.iter().all(|&b| b == 0)
}

/// Every rule of a block that is not empty. The row 2 says that a molecule has a base.
pub fn sound_full(layout: &Layout, block: &[u8]) -> bool {
    let n = block[1] as usize;
    if block[0] != layout.kind || n > layout.most {
        return false;
    }
    if !zero(&block[2..layout.bases]) || !zero(&block[layout.bases + n..layout.mates]) || !zero(&block[layout.mates + 2 * n..layout.maps]) {
        return false;
    }
    if block[CHECKSUM..] != checksum(block).to_le_bytes() {
        return false;
    }
    if layout.kind == ENTRY.kind && (0..64).any(|k| block[HIT + k] & !block[SEARCHED + k] != 0) {
        return false;
    }
    let mut mates = [0; MOLECULE_BASES];
    for (i, mate) in mates[..n].iter_mut().enumerate() {
        *mate = number(block, layout.mates + 2 * i);
    }
    judge(Strand::new(&block[layout.bases..layout.bases + n], &mates[..n]), layout.side, layout.most).is_none()
}

pub fn sound(layout: &Layout, block: &[u8]) -> bool {
    empty(block) || sound_full(layout, block)
}

/// The block of a strand with empty maps and no checksum yet.
fn encode(layout: &Layout, s: Strand) -> [u8; BLOCK] {
    let mut block = [0; BLOCK];
    block[0] = layout.kind;
    block[1] = s.len() as u8;
    block[layout.bases..layout.bases + s.len()].copy_from_slice(s.bases);
    for (i, mate) in s.mates.iter().enumerate() {
        block[layout.mates + 2 * i..][..2].copy_from_slice(&mate.to_le_bytes());
    }
    block
}

pub fn molecule_block(s: Strand) -> [u8; BLOCK] {
    let mut block = encode(&MOLECULE, s);
    seal(&mut block);
    block
}

/// The entry of a motif with the given numbers searched, each with whether it is a hit.
pub fn entry_block(motif: Strand, numbers: impl Iterator<Item = (usize, bool)>) -> [u8; BLOCK] {
    let mut block = encode(&ENTRY, motif);
    for (d, hit) in numbers {
        block[SEARCHED + d / 8] |= 1 << (d % 8);
        block[HIT + d / 8] |= (hit as u8) << (d % 8);
    }
    seal(&mut block);
    block
}

pub fn searched_bit(block: &[u8], d: usize) -> bool {
    block[SEARCHED + d / 8] >> (d % 8) & 1 == 1
}

pub fn hit_bit(block: &[u8], d: usize) -> bool {
    block[HIT + d / 8] >> (d % 8) & 1 == 1
}

/// Clears d in both maps.
pub fn forget(block: &mut [u8], d: usize) {
    block[SEARCHED + d / 8] &= !(1 << (d % 8));
    block[HIT + d / 8] &= !(1 << (d % 8));
    seal(block);
}
