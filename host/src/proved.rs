//! The proved library through its C interface. The only unsafe code of the host stands here, in `proved_tables` and in `stack`.
#![allow(unsafe_code)]

use crate::planner::Planner;

extern "C" {
    fn slot_check(book: *const u8, book_len: usize) -> u32;
    fn slot_start(book: *const u8, book_len: usize, area: *mut u8, area_len: usize) -> u32;
    fn slot_advance(
        book: *const u8,
        book_len: usize,
        area: *mut u8,
        area_len: usize,
        grants: *mut u8,
        grants_len: usize,
    ) -> u32;
    fn slot_why(book: *const u8, book_len: usize, area: *const u8, area_len: usize, place: usize) -> u32;
}

pub struct Proved;

// SAFETY of the four calls: each pointer and length comes from one live slice, a written one is lent exclusively,
// and the library keeps none of them.
impl Planner for Proved {
    fn name(&self) -> &'static str {
        "proved"
    }

    fn check(&self, book: &[u8]) -> u32 {
        unsafe { slot_check(book.as_ptr(), book.len()) }
    }

    fn start(&self, book: &[u8], area: &mut [u8]) -> u32 {
        unsafe { slot_start(book.as_ptr(), book.len(), area.as_mut_ptr(), area.len()) }
    }

    fn advance(&self, book: &[u8], area: &mut [u8], grants: &mut [u8]) -> u32 {
        let (area_at, grants_at) = (area.as_mut_ptr(), grants.as_mut_ptr());
        unsafe { slot_advance(book.as_ptr(), book.len(), area_at, area.len(), grants_at, grants.len()) }
    }

    fn why(&self, book: &[u8], area: &[u8], place: usize) -> u32 {
        unsafe { slot_why(book.as_ptr(), book.len(), area.as_ptr(), area.len(), place) }
    }

    #[cfg(tables)]
    fn tables(&self) -> Option<&dyn crate::planner::Tables> {
        Some(self)
    }
}
