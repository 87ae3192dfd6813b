//! The motif buffer of a batch, request (v) of document 02: a block for each motif.
use super::block::{self, BLOCK, ENTRY, MOTIF, Owned};
use super::strand::{self, Refused};

/// "A new call takes 1 to 16 motifs".
pub const MOST: usize = 16;

pub fn count(motifs: &[u8]) -> usize {
    motifs.len() / BLOCK
}

/// The block is neither unsound nor empty.
fn holds_motif(b: &[u8]) -> bool {
    !block::empty(b) && block::sound_full(&MOTIF, b)
}

/// The motifs that the whole blocks hold, by index; none where a block holds no motif.
pub fn held(motifs: &[u8]) -> Vec<Option<Owned>> {
    motifs.chunks_exact(BLOCK).map(|b| holds_motif(b).then(|| block::decode(&MOTIF, b))).collect()
}

/// The row 15: "place 0 for its size, else the lowest such block, side 0".
pub fn bad(motifs: &[u8]) -> Option<Refused> {
    let sized = motifs.len() % BLOCK == 0 && (1..=MOST).contains(&count(motifs));
    let place = if sized { motifs.chunks_exact(BLOCK).position(|b| !holds_motif(b)) } else { Some(0) };
    place.map(|place| Refused(15, strand::MOTIF, place))
}

/// The row 3: "place the lowest such motif's index".
pub fn too_long(motifs: &[u8]) -> Option<Refused> {
    let place = held(motifs).iter().position(|motif| motif.as_ref().is_some_and(|motif| ENTRY.most < motif.bases.len()));
    place.map(|place| Refused(3, strand::MOTIF, place))
}

/// "The work slice is that of the longest motif."
pub fn longest(motifs: &[u8]) -> usize {
    held(motifs).iter().flatten().map(|motif| motif.bases.len()).max().unwrap_or(0)
}
