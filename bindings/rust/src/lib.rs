//! Safe calls of Lakhido: motif search and an answer cache for folded RNA. The library is written and proved in Rattle; this crate hands it slices and
//! gives back a [`Result`]. It has no dependencies.
//!
//! A molecule or a motif is a [`Strand`]: bases as bytes (`A`, `C`, `G`, `T`, `U`) and, for each base, the position of its mate, its own where it has
//! no bond. Arcs are nested. An embedding gives the motif's positions rising positions of the molecule with bases that match, and two positions of the motif
//! are an arc exactly when their places are. Two bases match when they are the same letter, or both are among `T` and `U`; either is kept as it was
//! delivered. A molecule has at least one base; a motif may have none, and that empty motif embeds in every molecule, with
//! length 0, no places, and a window with start 0 and length 0.
//!
//! No call asks anything of its caller: every input is answered or refused, and a refused call changes no byte of any buffer. No call allocates;
//! all memory is lent.
//!
//! ```
//! use lakhido::{BLOCK, Reason, Side, Strand, Window};
//!
//! # fn main() -> Result<(), lakhido::Refusal> {
//! // The hairpin GAC, its G and C bonded; the motif is a G and a C with a bond.
//! let hairpin = Strand::new(b"GAC", &[2, 1, 0]);
//! let motif = Strand::new(b"GC", &[1, 0]);
//!
//! // How many arcs the hairpin has, and how deep they lie one inside the other.
//! let fold = lakhido::check(hairpin)?;
//! assert_eq!((fold.arcs, fold.depth), (1, 1));
//!
//! // How much of the motif embeds, and where.
//! let mut work = vec![0; lakhido::work_size(2, 3)];
//! let mut places = [0; 2];
//! assert_eq!(lakhido::show(motif, hairpin, &mut places, &mut work)?.length, 2);
//! assert_eq!(places, [0, 2]);
//! assert!(lakhido::verify(motif, hairpin, &places)?.embeds);
//!
//! // The shortest piece of a longer molecule that still carries the motif: 3 bases from position 4.
//! let longer = Strand::new(b"GAACGUCA", &[3, 1, 2, 0, 6, 5, 4, 7]);
//! let mut work = vec![0; lakhido::work_size(2, 8)];
//! assert_eq!(lakhido::window(motif, longer, &mut work)?.window, Some(Window { start: 4, length: 3 }));
//!
//! // A catalog of two blocks and a cache of one; both begin as zeros.
//! let mut catalog = vec![0; 2 * BLOCK];
//! let mut cache = vec![0; BLOCK];
//! assert_eq!(lakhido::add(&mut catalog, &mut cache, 1, hairpin)?, fold);
//!
//! let mut work = vec![0; lakhido::query_work_size(2)];
//! let mut hits = [0; 2];
//! let found = lakhido::query(&catalog, &mut cache, motif, &mut work, &mut hits)?;
//! assert_eq!((found.count, found.searched), (1, 1));
//! assert_eq!(hits[..found.count], [1]);
//!
//! // The same query again is answered from the cache.
//! assert_eq!(lakhido::query(&catalog, &mut cache, motif, &mut work, &mut hits)?.searched, 0);
//!
//! // The empty motif lists every molecule of the catalog.
//! lakhido::add(&mut catalog, &mut cache, 0, Strand::new(b"AU", &[0, 1]))?;
//! assert_eq!(lakhido::query(&catalog, &mut cache, Strand::new(b"", &[]), &mut work, &mut hits)?.count, 2);
//! assert_eq!(hits, [0, 1]);
//!
//! // Several motifs in one call, each in a block: the hits of motif t are from entry t * 2 on. Neither is in the cache, and each molecule is read once.
//! let motifs: Vec<u8> = [motif, Strand::new(b"A", &[0])].into_iter().flat_map(|p| lakhido::motif_block(p).expect("a short motif")).collect();
//! let mut hits = [0; 2 * 2];
//! let batch = lakhido::batch(&catalog, &mut cache, &motifs, &mut work, &mut hits)?;
//! assert_eq!(batch.read, 2);
//! assert_eq!((hits[0], hits[2], hits[3]), (1, 0, 1));
//!
//! // T and U match each other, so both spellings of a motif have the same hits. In the cache they are two motifs.
//! for bases in [b"AU", b"AT"] {
//!     let found = lakhido::query(&catalog, &mut cache, Strand::new(bases, &[0, 1]), &mut work, &mut hits)?;
//!     assert_eq!((found.count, hits[0], found.searched), (1, 0, 2));
//! }
//!
//! // A refusal says which rule, on which side, at which place.
//! let refusal = lakhido::check(Strand::new(b"AXC", &[0, 1, 2])).unwrap_err();
//! assert_eq!((refusal.reason, refusal.side, refusal.place), (Reason::BadLetter, Side::Molecule, 1));
//! assert_eq!(refusal.reason.number(), 4);
//! # Ok(())
//! # }
//! ```
//!
//! To build: `make archive` in the repository proves the library and writes `crates/capi/out/libcapi.a` (x86-64), which this crate links. Another
//! folder is named by the variable `LAKHIDO_LIB_DIR`.
//!
//! A call needs no more than [`STACK`] bytes of stack.

mod block;
mod ffi;
mod refusal;

pub use block::motif_block;
use ffi::Answer;
pub use refusal::{Reason, Refusal, Side};

/// The most bases of a strand for [`check`], [`length`], [`show`], [`window`] and [`verify`].
pub const MOST: usize = 4096;
/// The most bases of a molecule in the catalog.
pub const MOLECULE_MOST: usize = 160;
/// The most bases of a motif in a query or a batch.
pub const MOTIF_MOST: usize = 120;
/// The bytes of a block. A block of zeros is empty.
pub const BLOCK: usize = 512;
/// The most blocks of a catalog; it has at least one.
pub const BLOCKS_MOST: usize = 512;
/// The most blocks of a cache; it has at least one.
pub const SLOTS_MOST: usize = 64;
/// The most motifs of a batch; it has at least one.
pub const MOTIFS_MOST: usize = 16;
/// Bytes of stack that are enough for any call (measured by a test, not proved).
pub const STACK: usize = 1048576;

/// The least work slice for [`length`], [`show`] and [`window`]: a motif of m bases, a molecule of n.
pub const fn work_size(m: usize, n: usize) -> usize {
    64 * (m + 1) + 8 * n
}

/// The least work slice for [`query`], a motif of m bases, and for [`batch`], a longest motif of m bases.
pub const fn query_work_size(m: usize) -> usize {
    work_size(m, MOLECULE_MOST)
}

/// A borrowed molecule or motif. It may break any rule: the calls check it.
#[derive(Clone, Copy, PartialEq, Eq, Debug)]
pub struct Strand<'a> {
    /// The letters: `A`, `C`, `G`, `T` and `U`.
    pub bases: &'a [u8],
    /// For each base the position of its mate, its own where it has no bond.
    pub mates: &'a [u16],
}

impl<'a> Strand<'a> {
    /// The strand of these bases and mates. Nothing is checked.
    pub const fn new(bases: &'a [u8], mates: &'a [u16]) -> Self {
        Strand { bases, mates }
    }
}

/// The fold of a molecule, as [`check`] and [`add`] answer it; [`length`], [`show`], [`window`] and [`verify`] hand on that of their molecule, never that of
/// the motif.
#[derive(Clone, Copy, PartialEq, Eq, Debug)]
pub struct Fold {
    /// How many arcs the molecule has.
    pub arcs: usize,
    /// How deep they lie: the largest number of arcs of which each lies inside the one before. One arc has depth 1, arcs side by side are as deep as the
    /// deepest of them, and without arcs the depth is 0.
    pub depth: usize,
}

/// What [`length`] and [`show`] found.
#[derive(Clone, Copy, PartialEq, Eq, Debug)]
pub struct Matched {
    /// The length of the longest closed prefix of the motif that embeds in the molecule.
    pub length: usize,
    /// The fold of the molecule.
    pub fold: Fold,
}

/// A window of a molecule: a stretch of its bases, taken as a molecule of its own. It has the arcs with both ends in it; a base whose mate lies outside is
/// unbonded in it.
#[derive(Clone, Copy, PartialEq, Eq, Debug)]
pub struct Window {
    /// The position in the molecule where it begins.
    pub start: usize,
    /// How many bases it has.
    pub length: usize,
}

/// What [`window`] found.
#[derive(Clone, Copy, PartialEq, Eq, Debug)]
pub struct Windowed {
    /// The tightest window that carries the motif; none exactly when the motif does not embed in the molecule.
    pub window: Option<Window>,
    /// The fold of the molecule, not of the window, whether there is a window or not.
    pub fold: Fold,
}

/// What [`verify`] found.
#[derive(Clone, Copy, PartialEq, Eq, Debug)]
pub struct Verified {
    /// Whether the places are an embedding of the whole motif in the molecule.
    pub embeds: bool,
    /// The fold of the molecule, whether the places are an embedding or not.
    pub fold: Fold,
}

/// What [`query`] found, or [`batch`] for one of its motifs. The hits of a query stand at the start of the lent slice.
#[derive(Clone, Copy, PartialEq, Eq, Debug)]
pub struct Found {
    /// How many molecules the motif embeds in.
    pub count: usize,
    /// How many molecules were searched; the cache knew the others.
    pub searched: usize,
}

/// What [`batch`] found. The hits of motif t stand in the lent slice from entry t times the number of catalog blocks on.
#[derive(Clone, Copy, PartialEq, Eq, Debug)]
pub struct Batch {
    /// How many molecules were read: those that the query of at least one motif searches, each counted once.
    pub read: usize,
    found: [Found; MOTIFS_MOST],
    motifs: usize,
}

impl Batch {
    /// What each motif's query found, in the order of the motifs.
    pub fn queries(&self) -> &[Found] {
        &self.found[..self.motifs]
    }
}

/// The fold that an accepted call answers.
fn fold_of(answer: Answer) -> Fold {
    Fold { arcs: answer.arcs, depth: answer.depth }
}

/// The answer of [`length`] and [`show`].
fn matched(answer: Answer) -> Result<Matched, Refusal> {
    refusal::accepted(answer).map(|answer| Matched { length: answer.value, fold: fold_of(answer) })
}

/// Accepts a nested molecule of 1 to [`MOST`] bases, and gives its fold.
///
/// Refused by the reasons 1 to 7 with [`Side::Molecule`].
pub fn check(molecule: Strand) -> Result<Fold, Refusal> {
    refusal::accepted(ffi::check(molecule.bases, molecule.mates)).map(fold_of)
}

/// The length of the longest closed prefix of the motif that embeds in the molecule: the motif's length exactly when the motif embeds. A prefix is closed
/// when no arc has one end in it and one outside. With it the fold of the molecule.
///
/// `work` has at least [`work_size`] entries; what it holds before is of no matter, and what it holds after an accepted call is free.
///
/// Refused by the reasons 1 and 3 to 7 of the motif, 1 to 7 of the molecule, 8.
pub fn length(motif: Strand, molecule: Strand, work: &mut [u16]) -> Result<Matched, Refusal> {
    matched(ffi::length(motif.bases, motif.mates, molecule.bases, molecule.mates, work))
}

/// As [`length`], and writes the places of an embedding of that prefix to the start of `places`, keeping the later entries. `places` has at
/// least as many entries as the motif has bases. `work` is as for [`length`].
///
/// Refused by the reasons 1 and 3 to 7 of the motif, 1 to 7 of the molecule, 9, 8.
pub fn show(motif: Strand, molecule: Strand, places: &mut [u16], work: &mut [u16]) -> Result<Matched, Refusal> {
    matched(ffi::show(motif.bases, motif.mates, molecule.bases, molecule.mates, places, work))
}

/// The tightest window of the molecule that carries the motif, which means that the motif embeds in it: of these windows the shortest, and of the shortest
/// the one with the least start. None exactly when the motif does not embed in the molecule. With it the fold of the molecule. `work` is as for [`length`].
///
/// Refused by the reasons 1 and 3 to 7 of the motif, 1 to 7 of the molecule, 8.
///
/// ```
/// use lakhido::{Strand, Window};
///
/// # fn main() -> Result<(), lakhido::Refusal> {
/// // Of the two hairpins the second is shorter. The window lies inside the outer arc and has neither of its ends.
/// let molecule = Strand::new(b"AGAACGACU", &[8, 4, 2, 3, 1, 7, 6, 5, 0]);
/// let mut work = vec![0; lakhido::work_size(2, 9)];
/// let bonded = lakhido::window(Strand::new(b"GC", &[1, 0]), molecule, &mut work)?;
/// assert_eq!(bonded.window, Some(Window { start: 5, length: 3 }));
/// assert_eq!((bonded.fold.arcs, bonded.fold.depth), (3, 2));
///
/// // C and U with a bond are nowhere in it; without one they are, though the U is bonded to a base outside of the window.
/// assert_eq!(lakhido::window(Strand::new(b"CU", &[1, 0]), molecule, &mut work)?.window, None);
/// assert_eq!(lakhido::window(Strand::new(b"CU", &[0, 1]), molecule, &mut work)?.window, Some(Window { start: 7, length: 2 }));
/// # Ok(())
/// # }
/// ```
pub fn window(motif: Strand, molecule: Strand, work: &mut [u16]) -> Result<Windowed, Refusal> {
    let answer = refusal::accepted_window(ffi::window(motif.bases, motif.mates, molecule.bases, molecule.mates, work))?;
    let window = (answer.found != 0).then_some(Window { start: answer.start, length: answer.length });
    Ok(Windowed { window, fold: Fold { arcs: answer.arcs, depth: answer.depth } })
}

/// Whether `places` is an embedding of the whole motif in the molecule, and with it the fold of the molecule. `places` has as many entries as the motif has
/// bases; a place past the molecule's end is no embedding and is not refused.
///
/// Refused by the reasons 1 and 3 to 7 of the motif, 1 to 7 of the molecule, 9.
pub fn verify(motif: Strand, molecule: Strand, places: &[u16]) -> Result<Verified, Refusal> {
    let answer = refusal::accepted(ffi::verify(motif.bases, motif.mates, molecule.bases, molecule.mates, places))?;
    Ok(Verified { embeds: answer.value != 0, fold: fold_of(answer) })
}

/// Writes a molecule of 1 to [`MOLECULE_MOST`] bases to block `number` of the catalog, zeroes every unsound block of the cache, and gives the molecule's fold.
///
/// Refused by the reasons 10, 11, 12, 13, then 1 to 7 of the molecule.
pub fn add(catalog: &mut [u8], cache: &mut [u8], number: usize, molecule: Strand) -> Result<Fold, Refusal> {
    refusal::accepted(ffi::add(catalog, cache, number, molecule.bases, molecule.mates)).map(fold_of)
}

/// Zeroes block `number` of the catalog and every unsound block of the cache, and takes the number out of every cache entry.
///
/// Refused by the reasons 10, 11, 12, 14.
pub fn remove(catalog: &mut [u8], cache: &mut [u8], number: usize) -> Result<(), Refusal> {
    refusal::accepted(ffi::remove(catalog, cache, number)).map(|_| ())
}

/// Finds the molecules of the catalog that the motif, of 0 to [`MOTIF_MOST`] bases, embeds in, and writes their numbers, rising, to the start of `hits`,
/// keeping the later entries. `hits` has at least as many entries as the catalog has blocks. What the cache knows of this motif is not searched
/// again; the block of the motif's slot is written anew, and every unsound block of the cache is zeroed.
///
/// A sound cache entry of this motif is believed: so this holds of a cache that was zeros at first and that these calls alone wrote, but for one altered
/// byte in each block between one accepted call and the next.
///
/// A cache block, or slot, keeps the answers of one motif; motifs whose key (sum of bytes and mates) is equal mod the number of blocks share one, and the
/// later takes its place. Motifs are compared byte by byte: a spelling with `T` and one with `U` are two motifs here, with the same hits.
///
/// `work` has at least [`query_work_size`] entries; what it holds before is of no matter, and what it holds after an accepted call is free.
///
/// Refused by the reasons 10, 11, 1 and 3 to 7 of the motif, 9, 8.
pub fn query(catalog: &[u8], cache: &mut [u8], motif: Strand, work: &mut [u16], hits: &mut [u16]) -> Result<Found, Refusal> {
    let answer = refusal::accepted(ffi::query(catalog, cache, motif.bases, motif.mates, work, hits))?;
    Ok(Found { count: answer.value, searched: answer.searched })
}

/// Queries for a family of 1 to [`MOTIFS_MOST`] motifs in one call, which reads each molecule once for all of them. Counts, hits, searched numbers and the
/// cache afterwards are those of [`query`] for each motif in the order of the buffer, each with the cache that the one before left; so what is said there of
/// a believed cache entry holds here too.
///
/// `motifs` is one block of [`BLOCK`] bytes for each motif, as [`motif_block`] makes it. A block of zeros is no motif; the block of the motif with no bases is
/// not all zeros. The same motif may stand there twice.
///
/// With B blocks in the catalog the numbers of motif t's hits go, rising, to the entries from t * B on of `hits`, which has at least B entries for each motif;
/// every other entry is kept, those between two lists too. A motif that stands in the batch before, with no other motif of its slot between, searches
/// nothing; one whose slot another motif of the batch took last searches all.
///
/// `work` has at least [`query_work_size`] entries, m being the bases of the longest motif; what it holds before is of no matter, and what it holds after an
/// accepted call is free.
///
/// Refused by the reasons 10, 11, 15, 3 of the motifs (the place is the motif's index), 9, 8. A block may have up to [`MOLECULE_MOST`] bases: one of more than
/// [`MOTIF_MOST`] is sound, and 3 refuses it, after 15.
///
/// ```
/// use lakhido::{BLOCK, Found, Reason, Side, Strand, motif_block};
///
/// # fn main() -> Result<(), lakhido::Refusal> {
/// let (mut catalog, mut cache) = (vec![0; 3 * BLOCK], vec![0; BLOCK]);
/// lakhido::add(&mut catalog, &mut cache, 0, Strand::new(b"GAC", &[2, 1, 0]))?;
/// lakhido::add(&mut catalog, &mut cache, 2, Strand::new(b"GGC", &[2, 1, 0]))?;
///
/// // G and C with a bond, the same once more, and without one. The cache has one block: the last takes the place of the first two.
/// let family = [Strand::new(b"GC", &[1, 0]), Strand::new(b"GC", &[1, 0]), Strand::new(b"GC", &[0, 1])];
/// let mut motifs: Vec<u8> = family.into_iter().flat_map(|motif| motif_block(motif).expect("two bases")).collect();
/// let mut work = vec![0; lakhido::query_work_size(2)];
/// let mut hits = vec![9; 3 * 3];
/// let batch = lakhido::batch(&catalog, &mut cache, &motifs, &mut work, &mut hits)?;
/// assert_eq!(batch.queries(), [Found { count: 2, searched: 2 }, Found { count: 2, searched: 0 }, Found { count: 1, searched: 2 }]);
/// assert_eq!(hits, [0, 2, 9, 0, 2, 9, 2, 9, 9]);
///
/// // Two molecules are held, and both were searched twice; each was read once.
/// assert_eq!(batch.read, 2);
///
/// // The list of each motif.
/// for (list, found) in hits.chunks(3).zip(batch.queries()) {
///     assert!(list[..found.count].contains(&2));
/// }
///
/// // A block of zeros is no motif.
/// motifs[BLOCK..2 * BLOCK].fill(0);
/// let refusal = lakhido::batch(&catalog, &mut cache, &motifs, &mut work, &mut hits).unwrap_err();
/// assert_eq!((refusal.reason, refusal.side, refusal.place), (Reason::BadMotifs, Side::Motif, 1));
/// # Ok(())
/// # }
/// ```
pub fn batch(catalog: &[u8], cache: &mut [u8], motifs: &[u8], work: &mut [u16], hits: &mut [u16]) -> Result<Batch, Refusal> {
    let answer = refusal::accepted_batch(ffi::batch(catalog, cache, motifs, work, hits))?;
    let found = std::array::from_fn(|t| Found { count: answer.counts[t], searched: answer.searched[t] });
    Ok(Batch { read: answer.read, found, motifs: motifs.len() / BLOCK })
}
