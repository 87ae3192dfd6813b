//! Random blocks: sound ones, and ones spoilt by one rule at a time.
use crate::make;
use crate::plain::block::{self, BLOCK, CHECKSUM, ENTRY, HIT, Layout, MOLECULE, Owned, SEARCHED};
use crate::plain::strand::Strand;
use crate::random::Random;

/// The bytes that are not zero, for the report of a difference.
pub fn written(bytes: &[u8]) -> String {
    let runs = bytes.chunk_by(|a, b| (*a == 0) == (*b == 0));
    let mut text = format!("[{} bytes", bytes.len());
    let mut at = 0;
    for run in runs {
        if run[0] != 0 {
            text += &format!("; from {at}: {run:?}");
        }
        at += run.len();
    }
    text + "; else 0]"
}

/// An entry with random maps: it may lie, and name numbers that no catalog holds.
pub fn entry(r: &mut Random, motif: &Owned, numbers: usize) -> [u8; BLOCK] {
    let often = r.below(5);
    let bits: Vec<(usize, bool)> = (0..numbers).filter(|_| r.below(4) < often).map(|d| (d, d % 3 != 0)).collect();
    block::entry_block(motif.lend(), bits.into_iter().map(|(d, hit)| (d, hit && r.one_in(2))))
}

/// Damages the strand of a block by one of the rows 4 to 7, as far as its length allows.
fn spoil_strand(r: &mut Random, layout: &Layout, block: &mut [u8]) {
    let mut s = block::decode(layout, block);
    let row = r.between(4, 7) as u32;
    make::damage(r, &mut s, row, layout.most);
    block[layout.bases..][..s.bases.len()].copy_from_slice(&s.bases);
    for (i, mate) in s.mates.iter().enumerate() {
        block[layout.mates + 2 * i..][..2].copy_from_slice(&mate.to_le_bytes());
    }
}

/// Breaks one rule of a sound block that is not empty, as far as its length allows. Mostly the checksum is made right again, so that only the rule can tell.
pub fn spoil(r: &mut Random, layout: &Layout, block: &mut [u8]) {
    let n = block[1] as usize;
    let free = layout.most - n;
    match r.below(17) {
        0 => block[0] = r.pick(&[0, 3 - layout.kind, 3, 9, 255]),
        1 => block[1] = r.pick(&[0, layout.most as u8 + 1, 255]),
        2 => block[1] = if r.one_in(2) { block[1].wrapping_sub(1) } else { block[1] + 1 },
        3 => block[r.between(2, layout.bases - 1)] = r.pick(&[1, 65, 255]),
        4 if 0 < free => block[layout.bases + n + r.below(free)] = r.pick(&[1, 65, 255]),
        5 if 0 < free => block[layout.mates + 2 * n + r.below(2 * free)] = r.pick(&[1, 65, 255]),
        6..=9 => spoil_strand(r, layout, block),
        10 if layout.kind == ENTRY.kind => {
            let (k, bit) = (r.below(64), 1 << r.below(8));
            block[HIT + k] |= bit;
            block[SEARCHED + k] &= !bit;
        }
        10 => block.copy_from_slice(&block::molecule_block(Strand::new(&[], &[]))),
        11 => {
            let at = r.below(block.len());
            block.fill(0);
            block[at] = r.pick(&[1, 2, 65, 255]);
        }
        12 => block.iter_mut().for_each(|b| *b = r.below(256) as u8),
        13 => {
            block[r.between(CHECKSUM, BLOCK - 1)] ^= 1 << r.below(8);
            return;
        }
        _ => {
            let at = r.below(block.len());
            block[at] = block[at].wrapping_add(r.between(1, 255) as u8);
            return;
        }
    }
    if !r.one_in(5) {
        block::seal(block);
    }
}

/// A buffer of B catalog blocks; one in `spoilt` of the molecules is damaged, none where it is 0.
pub fn catalog(r: &mut Random, blocks: usize, pool: &[Owned], spoilt: usize) -> Vec<u8> {
    let mut bytes = vec![0; BLOCK * blocks];
    let full = r.between(1, 4);
    for b in bytes.chunks_exact_mut(BLOCK) {
        if r.below(4) < full {
            let at = r.below(pool.len());
            b.copy_from_slice(&block::molecule_block(pool[at].lend()));
            if spoilt != 0 && r.one_in(spoilt) {
                spoil(r, &MOLECULE, b);
            }
        }
    }
    bytes
}

/// A buffer of motif blocks, each with any of the motifs.
pub fn motifs(r: &mut Random, blocks: usize, pool: &[Owned]) -> Vec<u8> {
    (0..blocks).flat_map(|_| block::molecule_block(pool[r.below(pool.len())].lend())).collect()
}

/// A buffer of S cache blocks with entries of any of the motifs in any slot; one in four is damaged.
pub fn cache(r: &mut Random, slots: usize, numbers: usize, pool: &[Owned]) -> Vec<u8> {
    let mut bytes = vec![0; BLOCK * slots];
    for b in bytes.chunks_exact_mut(BLOCK) {
        if !r.one_in(4) {
            let at = r.below(pool.len());
            b.copy_from_slice(&entry(r, &pool[at], numbers));
            if r.one_in(4) {
                spoil(r, &ENTRY, b);
            }
        }
    }
    bytes
}

/// Damages a cache block where it has content, else writes one byte.
pub fn spoil_any(r: &mut Random, b: &mut [u8]) {
    if !block::empty(b) && b[1] as usize <= ENTRY.most {
        spoil(r, &ENTRY, b);
    } else {
        b[r.below(BLOCK)] = r.below(256) as u8;
    }
}
