//! The proved calls on a table through the archive that `archives.sh` makes for the bench.
#![allow(unsafe_code)]

use crate::limits::*;
use crate::memory::{Newcomer, PlanBytes, TableBytes, TABLE_BYTES};
use crate::planner::Tables;
use crate::proved::Proved;

extern "C" {
    fn table_read(book: *const u8, book_len: usize, table: *mut u8, table_len: usize) -> u32;
    fn table_add(
        table: *const u8,
        table_len: usize,
        place: usize,
        record: *const [u8; RECORD_BYTES],
        plan: *const PlanBytes,
        added: *mut u8,
        added_len: usize,
    ) -> u32;
    fn table_check(table: *const u8, table_len: usize, bounds: *mut [u16; MAX_FLOWS]) -> u32;
}

// SAFETY of the three calls: each pointer comes from a live reference, with the length of what it leads to beside it where the call does
// not know it, a written one is lent exclusively, and the library keeps none of them.
impl Tables for Proved {
    fn read(&self, book: &[u8], table: &mut TableBytes) -> u32 {
        unsafe { table_read(book.as_ptr(), book.len(), table.as_mut_ptr(), TABLE_BYTES) }
    }

    fn add(&self, table: &TableBytes, newcomer: &Newcomer, added: &mut TableBytes) -> u32 {
        let Newcomer { place, record, plan } = newcomer;
        unsafe { table_add(table.as_ptr(), TABLE_BYTES, *place, record, plan, added.as_mut_ptr(), TABLE_BYTES) }
    }

    fn check_table(&self, table: &TableBytes, bounds: &mut [u16; MAX_FLOWS]) -> u32 {
        unsafe { table_check(table.as_ptr(), TABLE_BYTES, bounds) }
    }
}
