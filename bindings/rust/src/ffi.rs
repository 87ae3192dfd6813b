//! The C interface of include/lakhido.h, with slices in the place of pointers and lengths. All `unsafe` of the crate is here.
//!
//! Every call is sound for the same reasons, which are the rules under "Buffers" in include/lakhido.h:
//! - each pointer and length is that of one slice, so it is valid for its whole length, aligned and initialised, and stays so for the call;
//! - a `&mut` slice overlaps no other argument, by the borrow rules, and `&` slices are declared `const` and not written;
//! - any bytes and any 16-bit numbers are values of `u8` and `u16`, so whatever a call writes leaves the slices valid;
//! - the functions take every content and length, keep no pointer, do not unwind and have no state.
//!
//! That the library does what the header says is proved in the repository. `tools/verify-interface` holds the declarations here to the Rattle source,
//! and the functions below, whose parameters have its names, to the order of its parameters; it is no proof. The tests make all calls, and hold the layout
//! of [`Answer`], [`WindowAnswer`] and [`BatchAnswer`] to that of C.
use crate::MOTIFS_MOST;

/// `lakhido_answer`: refusal 0 means accepted.
#[repr(C)]
#[derive(Clone, Copy)]
pub struct Answer {
    pub refusal: usize,
    pub side: usize,
    pub place: usize,
    pub value: usize,
    pub searched: usize,
    pub arcs: usize,
    pub depth: usize,
}

/// `lakhido_window_answer`: refusal 0 means accepted, and then `found` 0 that there is no window.
#[repr(C)]
#[derive(Clone, Copy)]
pub struct WindowAnswer {
    pub refusal: usize,
    pub side: usize,
    pub place: usize,
    pub found: usize,
    pub start: usize,
    pub length: usize,
    pub arcs: usize,
    pub depth: usize,
}

/// `lakhido_batch_answer`: refusal 0 means accepted.
#[repr(C)]
#[derive(Clone, Copy)]
pub struct BatchAnswer {
    pub refusal: usize,
    pub side: usize,
    pub place: usize,
    pub read: usize,
    pub counts: [usize; MOTIFS_MOST],
    pub searched: [usize; MOTIFS_MOST],
}

mod c {
    use super::{Answer, BatchAnswer, WindowAnswer};

    unsafe extern "C" {
        pub fn lakhido_check(bases: *const u8, bases_length: usize, mates: *const u16, mates_length: usize) -> Answer;
        pub fn lakhido_length(
            motif_bases: *const u8,
            motif_bases_length: usize,
            motif_mates: *const u16,
            motif_mates_length: usize,
            bases: *const u8,
            bases_length: usize,
            mates: *const u16,
            mates_length: usize,
            work: *mut u16,
            work_length: usize,
        ) -> Answer;
        pub fn lakhido_show(
            motif_bases: *const u8,
            motif_bases_length: usize,
            motif_mates: *const u16,
            motif_mates_length: usize,
            bases: *const u8,
            bases_length: usize,
            mates: *const u16,
            mates_length: usize,
            places: *mut u16,
            places_length: usize,
            work: *mut u16,
            work_length: usize,
        ) -> Answer;
        pub fn lakhido_window(
            motif_bases: *const u8,
            motif_bases_length: usize,
            motif_mates: *const u16,
            motif_mates_length: usize,
            bases: *const u8,
            bases_length: usize,
            mates: *const u16,
            mates_length: usize,
            work: *mut u16,
            work_length: usize,
        ) -> WindowAnswer;
        pub fn lakhido_verify(
            motif_bases: *const u8,
            motif_bases_length: usize,
            motif_mates: *const u16,
            motif_mates_length: usize,
            bases: *const u8,
            bases_length: usize,
            mates: *const u16,
            mates_length: usize,
            places: *const u16,
            places_length: usize,
        ) -> Answer;
        pub fn lakhido_add(
            catalog: *mut u8,
            catalog_length: usize,
            cache: *mut u8,
            cache_length: usize,
            number: usize,
            bases: *const u8,
            bases_length: usize,
            mates: *const u16,
            mates_length: usize,
        ) -> Answer;
        pub fn lakhido_remove(catalog: *mut u8, catalog_length: usize, cache: *mut u8, cache_length: usize, number: usize) -> Answer;
        pub fn lakhido_query(
            catalog: *const u8,
            catalog_length: usize,
            cache: *mut u8,
            cache_length: usize,
            motif_bases: *const u8,
            motif_bases_length: usize,
            motif_mates: *const u16,
            motif_mates_length: usize,
            work: *mut u16,
            work_length: usize,
            hits: *mut u16,
            hits_length: usize,
        ) -> Answer;
        pub fn lakhido_batch(
            catalog: *const u8,
            catalog_length: usize,
            cache: *mut u8,
            cache_length: usize,
            motifs: *const u8,
            motifs_length: usize,
            work: *mut u16,
            work_length: usize,
            hits: *mut u16,
            hits_length: usize,
        ) -> BatchAnswer;
    }
}

pub fn check(bases: &[u8], mates: &[u16]) -> Answer {
    // SAFETY: two `&` slices, which the function only reads.
    unsafe { c::lakhido_check(bases.as_ptr(), bases.len(), mates.as_ptr(), mates.len()) }
}

pub fn length(p: &[u8], pm: &[u16], q: &[u8], qm: &[u16], work: &mut [u16]) -> Answer {
    // SAFETY: `work` alone is written, within its length, and as a `&mut` slice it overlaps none of the others.
    unsafe {
        c::lakhido_length(p.as_ptr(), p.len(), pm.as_ptr(), pm.len(), q.as_ptr(), q.len(), qm.as_ptr(), qm.len(), work.as_mut_ptr(), work.len())
    }
}

pub fn show(p: &[u8], pm: &[u16], q: &[u8], qm: &[u16], places: &mut [u16], work: &mut [u16]) -> Answer {
    // SAFETY: `places` and `work` alone are written, within their lengths; both are `&mut` slices, apart from each other and from the others.
    unsafe {
        c::lakhido_show(
            p.as_ptr(),
            p.len(),
            pm.as_ptr(),
            pm.len(),
            q.as_ptr(),
            q.len(),
            qm.as_ptr(),
            qm.len(),
            places.as_mut_ptr(),
            places.len(),
            work.as_mut_ptr(),
            work.len(),
        )
    }
}

pub fn window(p: &[u8], pm: &[u16], q: &[u8], qm: &[u16], work: &mut [u16]) -> WindowAnswer {
    // SAFETY: `work` alone is written, within its length, and as a `&mut` slice it overlaps none of the others.
    unsafe {
        c::lakhido_window(p.as_ptr(), p.len(), pm.as_ptr(), pm.len(), q.as_ptr(), q.len(), qm.as_ptr(), qm.len(), work.as_mut_ptr(), work.len())
    }
}

pub fn verify(p: &[u8], pm: &[u16], q: &[u8], qm: &[u16], places: &[u16]) -> Answer {
    // SAFETY: five `&` slices, which the function only reads.
    unsafe {
        c::lakhido_verify(p.as_ptr(), p.len(), pm.as_ptr(), pm.len(), q.as_ptr(), q.len(), qm.as_ptr(), qm.len(), places.as_ptr(), places.len())
    }
}

pub fn add(catalog: &mut [u8], cache: &mut [u8], d: usize, bases: &[u8], mates: &[u16]) -> Answer {
    // SAFETY: `catalog` and `cache` alone are written, within their lengths; both are `&mut` slices, apart from each other and from the others.
    unsafe {
        c::lakhido_add(
            catalog.as_mut_ptr(),
            catalog.len(),
            cache.as_mut_ptr(),
            cache.len(),
            d,
            bases.as_ptr(),
            bases.len(),
            mates.as_ptr(),
            mates.len(),
        )
    }
}

pub fn remove(catalog: &mut [u8], cache: &mut [u8], d: usize) -> Answer {
    // SAFETY: `catalog` and `cache` are written within their lengths; both are `&mut` slices, apart from each other.
    unsafe { c::lakhido_remove(catalog.as_mut_ptr(), catalog.len(), cache.as_mut_ptr(), cache.len(), d) }
}

pub fn query(catalog: &[u8], cache: &mut [u8], p: &[u8], pm: &[u16], work: &mut [u16], hits: &mut [u16]) -> Answer {
    // SAFETY: `cache`, `work` and `hits` alone are written, within their lengths; they are `&mut` slices, apart from each other and from the others.
    unsafe {
        c::lakhido_query(
            catalog.as_ptr(),
            catalog.len(),
            cache.as_mut_ptr(),
            cache.len(),
            p.as_ptr(),
            p.len(),
            pm.as_ptr(),
            pm.len(),
            work.as_mut_ptr(),
            work.len(),
            hits.as_mut_ptr(),
            hits.len(),
        )
    }
}

pub fn batch(catalog: &[u8], cache: &mut [u8], motifs: &[u8], work: &mut [u16], hits: &mut [u16]) -> BatchAnswer {
    // SAFETY: `cache`, `work` and `hits` alone are written, within their lengths; they are `&mut` slices, apart from each other and from the others.
    unsafe {
        c::lakhido_batch(
            catalog.as_ptr(),
            catalog.len(),
            cache.as_mut_ptr(),
            cache.len(),
            motifs.as_ptr(),
            motifs.len(),
            work.as_mut_ptr(),
            work.len(),
            hits.as_mut_ptr(),
            hits.len(),
        )
    }
}

#[cfg(test)]
mod layout;
