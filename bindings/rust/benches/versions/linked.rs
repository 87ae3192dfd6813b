//! The calls of the two archives that are linked, with slices in the place of pointers and lengths. The functions of the older one have the names that build.rs
//! gives them: `older_` before their own.
use crate::plain::block::Owned;

/// `lakhido_answer` of the header.
#[repr(C)]
pub struct Answer {
    refusal: usize,
    side: usize,
    place: usize,
    value: usize,
    searched: usize,
    arcs: usize,
    depth: usize,
}

/// `lakhido_window_answer`.
#[repr(C)]
pub struct WindowAnswer {
    refusal: usize,
    side: usize,
    place: usize,
    found: usize,
    start: usize,
    length: usize,
    arcs: usize,
    depth: usize,
}

type Length = unsafe extern "C" fn(*const u8, usize, *const u16, usize, *const u8, usize, *const u16, usize, *mut u16, usize) -> Answer;
type Show =
    unsafe extern "C" fn(*const u8, usize, *const u16, usize, *const u8, usize, *const u16, usize, *mut u16, usize, *mut u16, usize) -> Answer;
type Window = unsafe extern "C" fn(*const u8, usize, *const u16, usize, *const u8, usize, *const u16, usize, *mut u16, usize) -> WindowAnswer;
type Add = unsafe extern "C" fn(*mut u8, usize, *mut u8, usize, usize, *const u8, usize, *const u16, usize) -> Answer;
type Remove = unsafe extern "C" fn(*mut u8, usize, *mut u8, usize, usize) -> Answer;
type Query = unsafe extern "C" fn(*const u8, usize, *mut u8, usize, *const u8, usize, *const u16, usize, *mut u16, usize, *mut u16, usize) -> Answer;

/// The calls of one archive.
pub struct Library {
    length: Length,
    show: Show,
    window: Window,
    add: Add,
    remove: Remove,
    query: Query,
}

macro_rules! library {
    ($name:ident, $length:ident, $show:ident, $window:ident, $add:ident, $remove:ident, $query:ident) => {
        pub static $name: Library = {
            unsafe extern "C" {
                fn $length(
                    _: *const u8,
                    _: usize,
                    _: *const u16,
                    _: usize,
                    _: *const u8,
                    _: usize,
                    _: *const u16,
                    _: usize,
                    _: *mut u16,
                    _: usize,
                ) -> Answer;
                #[rustfmt::skip]
                fn $show(
                    _: *const u8,
                    _: usize,
                    _: *const u16,
                    _: usize,
                    _: *const u8,
                    _: usize,
                    _: *const u16,
                    _: usize,
                    _: *mut u16,
                    _: usize,
                    _: *mut u16,
                    _: usize,
                ) -> Answer;
                #[rustfmt::skip]
                fn $window(
                    _: *const u8,
                    _: usize,
                    _: *const u16,
                    _: usize,
                    _: *const u8,
                    _: usize,
                    _: *const u16,
                    _: usize,
                    _: *mut u16,
                    _: usize,
                ) -> WindowAnswer;
                fn $add(_: *mut u8, _: usize, _: *mut u8, _: usize, _: usize, _: *const u8, _: usize, _: *const u16, _: usize) -> Answer;
                fn $remove(_: *mut u8, _: usize, _: *mut u8, _: usize, _: usize) -> Answer;
                #[rustfmt::skip]
                fn $query(
                    _: *const u8,
                    _: usize,
                    _: *mut u8,
                    _: usize,
                    _: *const u8,
                    _: usize,
                    _: *const u16,
                    _: usize,
                    _: *mut u16,
                    _: usize,
                    _: *mut u16,
                    _: usize,
                ) -> Answer;
            }
            Library { length: $length, show: $show, window: $window, add: $add, remove: $remove, query: $query }
        };
    };
}

library!(NEWER, lakhido_length, lakhido_show, lakhido_window, lakhido_add, lakhido_remove, lakhido_query);
library!(OLDER, older_lakhido_length, older_lakhido_show, older_lakhido_window, older_lakhido_add, older_lakhido_remove, older_lakhido_query);

/// Each call gives a number by which the versions are compared. SAFETY, of all of them: each pointer and length is that of one slice, `&mut` slices overlap
/// nothing, and both archives take any content, as src/ffi.rs says.
impl Library {
    pub fn length(&self, p: &Owned, q: &Owned, work: &mut [u16]) -> usize {
        let (p, pm, q, qm) = (&p.bases, &p.mates, &q.bases, &q.mates);
        let call = self.length;
        unsafe { call(p.as_ptr(), p.len(), pm.as_ptr(), pm.len(), q.as_ptr(), q.len(), qm.as_ptr(), qm.len(), work.as_mut_ptr(), work.len()) }.value
    }

    pub fn show(&self, p: &Owned, q: &Owned, places: &mut [u16], work: &mut [u16]) -> usize {
        let (p, pm, q, qm) = (&p.bases, &p.mates, &q.bases, &q.mates);
        let (call, to, room) = (self.show, places.as_mut_ptr(), places.len());
        unsafe {
            call(p.as_ptr(), p.len(), pm.as_ptr(), pm.len(), q.as_ptr(), q.len(), qm.as_ptr(), qm.len(), to, room, work.as_mut_ptr(), work.len())
        }
        .value
    }

    pub fn window(&self, p: &Owned, q: &Owned, work: &mut [u16]) -> usize {
        let (p, pm, q, qm) = (&p.bases, &p.mates, &q.bases, &q.mates);
        let call = self.window;
        let a =
            unsafe { call(p.as_ptr(), p.len(), pm.as_ptr(), pm.len(), q.as_ptr(), q.len(), qm.as_ptr(), qm.len(), work.as_mut_ptr(), work.len()) };
        a.start * 10_000 + a.length
    }

    pub fn add(&self, catalog: &mut [u8], cache: &mut [u8], d: usize, q: &Owned) {
        let (q, qm) = (&q.bases, &q.mates);
        let call = self.add;
        let a = unsafe { call(catalog.as_mut_ptr(), catalog.len(), cache.as_mut_ptr(), cache.len(), d, q.as_ptr(), q.len(), qm.as_ptr(), qm.len()) };
        assert_eq!(a.refusal, 0, "add");
    }

    pub fn remove(&self, catalog: &mut [u8], cache: &mut [u8], d: usize) -> usize {
        let call = self.remove;
        unsafe { call(catalog.as_mut_ptr(), catalog.len(), cache.as_mut_ptr(), cache.len(), d) }.refusal
    }

    pub fn query(&self, catalog: &[u8], cache: &mut [u8], p: &Owned, work: &mut [u16], hits: &mut [u16]) -> usize {
        let (p, pm) = (&p.bases, &p.mates);
        let (call, to, room) = (self.query, hits.as_mut_ptr(), hits.len());
        #[rustfmt::skip]
        let a = unsafe {
            call(catalog.as_ptr(), catalog.len(), cache.as_mut_ptr(), cache.len(), p.as_ptr(), p.len(), pm.as_ptr(), pm.len(), work.as_mut_ptr(), work.len(), to, room)
        };
        a.value * 1_000 + a.searched
    }
}
