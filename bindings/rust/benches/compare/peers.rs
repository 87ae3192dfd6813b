//! The plain C versions of benches/peers, compiled at -O3 by build.rs, with slices in the place of pointers.
use crate::plain::strand::{Fold, Strand};
use lakhido::{BLOCK, BLOCKS_MOST, MOST, MOTIF_MOST, MOTIFS_MOST, SLOTS_MOST, Window};

mod c {
    use lakhido::MOTIFS_MOST;

    /// The fold of a molecule.
    #[derive(Default)]
    #[repr(C)]
    pub struct Fold {
        pub arcs: usize,
        pub depth: usize,
    }

    /// A window of a molecule.
    #[derive(Default)]
    #[repr(C)]
    pub struct Window {
        pub start: usize,
        pub length: usize,
    }

    /// What a batch answers.
    #[derive(Default)]
    #[repr(C)]
    pub struct Batched {
        pub read: usize,
        pub counts: [usize; MOTIFS_MOST],
        pub searched: [usize; MOTIFS_MOST],
    }

    /// A motif with what a search works out of it, which only C looks into.
    #[repr(C)]
    pub struct Motif {
        opaque: [u8; 0],
    }

    type Embeds = unsafe extern "C" fn(*mut Motif, *const u8, *const u16, usize, *mut u16) -> std::ffi::c_int;
    pub const SEARCHES: [Embeds; 2] = [rows_embeds, segments_embeds];

    type Unsound = unsafe extern "C" fn(*const u8, usize) -> usize;
    pub const MOLECULE_PASSES: [Unsound; 2] = [walk_unsound_molecule, apart_unsound_molecule];
    pub const ENTRY_PASSES: [Unsound; 2] = [walk_unsound_entry, apart_unsound_entry];

    unsafe extern "C" {
        pub fn rows_length(p: *const u8, pm: *const u16, m: usize, q: *const u8, qm: *const u16, n: usize, work: *mut u16) -> usize;
        pub fn segments_length(
            p: *const u8,
            pm: *const u16,
            m: usize,
            q: *const u8,
            qm: *const u16,
            n: usize,
            work: *mut u16,
            length: *mut usize,
            fold: *mut Fold,
        ) -> std::ffi::c_int;
        pub fn window_tightest(
            p: *const u8,
            pm: *const u16,
            m: usize,
            q: *const u8,
            qm: *const u16,
            n: usize,
            work: *mut u16,
            window: *mut Window,
            fold: *mut Fold,
        ) -> std::ffi::c_int;
        fn rows_embeds(motif: *mut Motif, q: *const u8, qm: *const u16, n: usize, work: *mut u16) -> std::ffi::c_int;
        fn segments_embeds(motif: *mut Motif, q: *const u8, qm: *const u16, n: usize, work: *mut u16) -> std::ffi::c_int;
        pub fn table_show(
            p: *const u8,
            pm: *const u16,
            m: usize,
            q: *const u8,
            qm: *const u16,
            n: usize,
            rows: *mut u16,
            places: *mut u16,
            fold: *mut Fold,
        ) -> usize;
        fn walk_unsound_molecule(catalog: *const u8, blocks: usize) -> usize;
        fn walk_unsound_entry(cache: *const u8, blocks: usize) -> usize;
        fn apart_unsound_molecule(catalog: *const u8, blocks: usize) -> usize;
        fn apart_unsound_entry(cache: *const u8, blocks: usize) -> usize;
        pub fn peer_query(
            embeds: Embeds,
            catalog: *const u8,
            blocks: usize,
            cache: *mut u8,
            slots: usize,
            p: *const u8,
            pm: *const u16,
            m: usize,
            work: *mut u16,
            hits: *mut u16,
            searched: *mut usize,
        ) -> std::ffi::c_long;
        pub fn peer_batch(
            catalog: *const u8,
            blocks: usize,
            cache: *mut u8,
            slots: usize,
            motifs: *const u8,
            count: usize,
            work: *mut u16,
            hits: *mut u16,
            answer: *mut Batched,
        ) -> std::ffi::c_int;
    }
}

/// Which search a C query uses.
#[derive(Clone, Copy)]
pub enum By {
    /// Document 003's rows.
    Rows = 0,
    /// The library's own algorithm.
    Segments = 1,
}

/// How a C soundness pass has the checksum.
#[derive(Clone, Copy)]
pub enum Sum {
    /// Gathered in the one walk over the block, in the library's stretches.
    Walked = 0,
    /// A walk of its own.
    Apart = 1,
}

fn assert_lengths(s: Strand, most: usize) {
    assert!(s.bases.len() == s.mates.len() && s.len() <= most);
}

fn assert_pair(p: Strand, q: Strand, work: &[u16]) {
    assert_lengths(p, MOST);
    assert_lengths(q, MOST);
    assert!(lakhido::work_size(p.len(), q.len()) <= work.len());
}

fn folded(fold: c::Fold) -> Fold {
    Fold { arcs: fold.arcs, depth: fold.depth }
}

/// The length of the longest closed prefix that embeds, by document 003's rows.
///
/// # Safety
///
/// The strands are valid: the library accepts them.
pub unsafe fn rows_length(p: Strand, q: Strand, work: &mut [u16]) -> usize {
    assert_pair(p, q, work);
    // SAFETY: valid strands, and a work slice as large as the library's, which is all that the peer asks.
    unsafe { c::rows_length(p.bases.as_ptr(), p.mates.as_ptr(), p.len(), q.bases.as_ptr(), q.mates.as_ptr(), q.len(), work.as_mut_ptr()) }
}

/// The same by the library's own algorithm, with the fold of the molecule; none where a strand is not valid.
pub fn segments_length(p: Strand, q: Strand, work: &mut [u16]) -> Option<(usize, Fold)> {
    assert_pair(p, q, work);
    let (mut length, mut fold) = (0, c::Fold::default());
    // SAFETY: strands of any content, which the peer checks, no longer than its tables, and a work slice as large as the library's.
    let valid = unsafe {
        c::segments_length(
            p.bases.as_ptr(),
            p.mates.as_ptr(),
            p.len(),
            q.bases.as_ptr(),
            q.mates.as_ptr(),
            q.len(),
            work.as_mut_ptr(),
            &mut length,
            &mut fold,
        )
    };
    (valid != 0).then(|| (length, folded(fold)))
}

/// The tightest window that carries the motif, if there is one, by the library's own algorithm, with the fold of the molecule; none where a strand is not
/// valid.
pub fn window_tightest(p: Strand, q: Strand, work: &mut [u16]) -> Option<(Option<Window>, Fold)> {
    assert_pair(p, q, work);
    let (mut window, mut fold) = (c::Window::default(), c::Fold::default());
    // SAFETY: strands of any content, which the peer checks, no longer than its tables, and a work slice as large as the library's.
    let valid = unsafe {
        c::window_tightest(
            p.bases.as_ptr(),
            p.mates.as_ptr(),
            p.len(),
            q.bases.as_ptr(),
            q.mates.as_ptr(),
            q.len(),
            work.as_mut_ptr(),
            &mut window,
            &mut fold,
        )
    };
    let found = (window.length <= q.len()).then_some(Window { start: window.start, length: window.length });
    (valid != 0).then(|| (found, folded(fold)))
}

/// The length, with the fold of the molecule; and writes the places of an embedding.
///
/// # Safety
///
/// The strands are valid: the library accepts them.
pub unsafe fn show(p: Strand, q: Strand, rows: &mut [u16], places: &mut [u16]) -> (usize, Fold) {
    assert_lengths(p, MOST);
    assert_lengths(q, MOST);
    assert!((p.len() + 1) * (q.len() + 1) <= rows.len() && p.len() <= places.len());
    let mut fold = c::Fold::default();
    // SAFETY: valid strands, a row of m + 1 numbers for each of n + 1 positions, and m places, which is all that the peer asks.
    let length = unsafe {
        c::table_show(
            p.bases.as_ptr(),
            p.mates.as_ptr(),
            p.len(),
            q.bases.as_ptr(),
            q.mates.as_ptr(),
            q.len(),
            rows.as_mut_ptr(),
            places.as_mut_ptr(),
            &mut fold,
        )
    };
    (length, folded(fold))
}

/// The lowest unsound molecule block, or the number of blocks.
pub fn unsound_molecule(sum: Sum, catalog: &[u8]) -> usize {
    // SAFETY: reads whole blocks of any content.
    unsafe { c::MOLECULE_PASSES[sum as usize](catalog.as_ptr(), catalog.len() / BLOCK) }
}

/// The lowest unsound cache entry, or the number of blocks.
pub fn unsound_entry(sum: Sum, cache: &[u8]) -> usize {
    // SAFETY: reads whole blocks of any content.
    unsafe { c::ENTRY_PASSES[sum as usize](cache.as_ptr(), cache.len() / BLOCK) }
}

/// The count of hits and of molecules searched.
///
/// # Safety
///
/// The motif is valid: the library accepts it.
pub unsafe fn query(by: By, catalog: &[u8], cache: &mut [u8], p: Strand, work: &mut [u16], hits: &mut [u16]) -> (usize, usize) {
    assert_lengths(p, MOTIF_MOST);
    assert!(lakhido::query_work_size(p.len()) <= work.len());
    let (blocks, slots) = (catalog.len() / BLOCK, cache.len() / BLOCK);
    assert!(blocks <= BLOCKS_MOST && blocks <= hits.len() && 0 < slots);
    let mut searched = 0;
    // SAFETY: a valid motif that an entry has room for, whole blocks, no more than an entry has bits, and work and hits as large as the library's, which is
    // all that the peer asks; it searches only where the catalog is sound.
    let count = unsafe {
        c::peer_query(
            c::SEARCHES[by as usize],
            catalog.as_ptr(),
            blocks,
            cache.as_mut_ptr(),
            slots,
            p.bases.as_ptr(),
            p.mates.as_ptr(),
            p.len(),
            work.as_mut_ptr(),
            hits.as_mut_ptr(),
            &mut searched,
        )
    };
    (usize::try_from(count).expect("a sound catalog"), searched)
}

/// For each motif the count of hits and of molecules searched, and the number of molecules read.
pub fn batch(catalog: &[u8], cache: &mut [u8], motifs: &[u8], work: &mut [u16], hits: &mut [u16]) -> ([(usize, usize); MOTIFS_MOST], usize) {
    let (blocks, slots, count) = (catalog.len() / BLOCK, cache.len() / BLOCK, motifs.len() / BLOCK);
    assert!(blocks <= BLOCKS_MOST && 0 < slots && slots <= SLOTS_MOST && count <= MOTIFS_MOST);
    assert!(count * blocks <= hits.len() && lakhido::query_work_size(MOTIF_MOST) <= work.len());
    let mut answer = c::Batched::default();
    // SAFETY: whole blocks of any content, which the peer judges, no more than it has room for, work as large as the library's for the longest motif that it
    // takes, and hits for each motif.
    let accepted = unsafe {
        c::peer_batch(catalog.as_ptr(), blocks, cache.as_mut_ptr(), slots, motifs.as_ptr(), count, work.as_mut_ptr(), hits.as_mut_ptr(), &mut answer)
    };
    assert!(accepted != 0, "a sound catalog and sound motifs");
    (std::array::from_fn(|t| (answer.counts[t], answer.searched[t])), answer.read)
}
