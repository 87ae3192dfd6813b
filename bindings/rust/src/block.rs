//! Motif blocks, by docs/FORMAT.md.
use crate::{BLOCK, MOLECULE_MOST, Strand};

/// Byte 0 of a block that holds a molecule or hands a motif in.
const KIND: u8 = 1;
/// Where the bases, the mates and the checksum begin.
const BASES: usize = 28;
const MATES: usize = BASES + MOLECULE_MOST;
const CHECKSUM: usize = BLOCK - 4;

/// The block that hands a motif to [`batch`](crate::batch); none where bases and mates differ in length, or are more than the [`MOLECULE_MOST`] that a block
/// has room for. The motif with no bases has a block too.
///
/// Nothing else is checked here: the batch refuses a block that breaks a rule, and a motif of more than [`MOTIF_MOST`](crate::MOTIF_MOST) bases. This function
/// is plain Rust and not proved; a block of `docs/FORMAT.md` may come from anywhere.
///
/// ```
/// use lakhido::{BLOCK, Strand, motif_block};
///
/// let block = motif_block(Strand::new(b"GC", &[1, 0])).expect("two bases and two mates");
/// assert_eq!((block.len(), &block[..2], &block[28..30]), (BLOCK, [1, 2].as_slice(), b"GC".as_slice()));
/// assert_eq!(motif_block(Strand::new(b"GC", &[0])), None);
/// ```
pub fn motif_block(motif: Strand) -> Option<[u8; BLOCK]> {
    let n = motif.bases.len();
    if motif.mates.len() != n || MOLECULE_MOST < n {
        return None;
    }
    let mut block = [0; BLOCK];
    (block[0], block[1]) = (KIND, n as u8);
    block[BASES..BASES + n].copy_from_slice(motif.bases);
    for (place, mate) in block[MATES..].chunks_exact_mut(2).zip(motif.mates) {
        place.copy_from_slice(&mate.to_le_bytes());
    }
    let sum: u32 = (1..).zip(&block[..CHECKSUM]).map(|(weight, &byte)| weight * u32::from(byte)).sum();
    block[CHECKSUM..].copy_from_slice(&sum.to_le_bytes());
    Some(block)
}
