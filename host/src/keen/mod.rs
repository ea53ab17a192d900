//! The yardstick: the calls for C, and those on a table that are timed, as a careful engineer would ship them. Each section of
//! the book is tested in one go, node sets are 64-bit masks, the interference of several flows is worked out side by side in one
//! word, the bound divides only where three instances of a flow count, and nothing is allocated or copied but a table.

mod book;
mod bound;
mod slot;
mod table;
mod why;

use crate::answer::*;
use crate::limits::*;
use crate::memory::{Newcomer, Table, TableBytes};
use crate::planner::{Planner, Tables};
use book::Book;

pub struct Keen;

impl Planner for Keen {
    fn name(&self) -> &'static str {
        "keen"
    }

    fn check(&self, book: &[u8]) -> u32 {
        answer(Book::open(book).and_then(|book| book.admit()))
    }

    fn start(&self, book: &[u8], area: &mut [u8]) -> u32 {
        let book = match Book::open(book) {
            Ok(book) => book,
            Err(answer) => return answer,
        };
        if let Err(answer) = book.admit() {
            return answer;
        }
        let Some(area) = area.get_mut(..AREA_BYTES) else {
            return packed(SHORT_MEMORY, 0);
        };
        area[..SLOT_BYTES].fill(0);
        area[SLOT_BYTES..].copy_from_slice(&book.lens);
        packed(DONE, 0)
    }

    fn advance(&self, book: &[u8], area: &mut [u8], grants: &mut [u8]) -> u32 {
        let book = match Book::open(book) {
            Ok(book) => book,
            Err(answer) => return answer,
        };
        match area.get_mut(..AREA_BYTES).map(<&mut [u8; AREA_BYTES]>::try_from) {
            Some(Ok(area)) if grants.len() >= GRANT_BYTES * book.flows() => book.run(area, grants),
            _ => packed(SHORT_MEMORY, 0),
        }
    }

    fn why(&self, book: &[u8], area: &[u8], place: usize) -> u32 {
        let book = match Book::open(book) {
            Ok(book) => book,
            Err(answer) => return answer,
        };
        match area.get(..AREA_BYTES).map(<&[u8; AREA_BYTES]>::try_from) {
            Some(Ok(area)) => book.why(area, place),
            _ => packed(SHORT_MEMORY, 0),
        }
    }

    fn tables(&self) -> Option<&dyn Tables> {
        Some(self)
    }
}

impl Tables for Keen {
    fn read(&self, book: &[u8], table: &mut TableBytes) -> u32 {
        let mut new = Table::zeros();
        let outcome = table::read(book, &mut new);
        new.put(table);
        answer(outcome)
    }

    fn add(&self, table: &TableBytes, newcomer: &Newcomer, added: &mut TableBytes) -> u32 {
        let (old, mut new) = (Table::from_bytes(table), Table::zeros());
        let outcome = table::add(&old, newcomer, &mut new);
        let handed_back = if outcome.is_ok() { &new } else { &old };
        handed_back.put(added);
        answer(outcome)
    }

    fn check_table(&self, table: &TableBytes, bounds: &mut [u16; MAX_FLOWS]) -> u32 {
        let outcome = table::check(&Table::from_bytes(table));
        *bounds = outcome.unwrap_or([0; MAX_FLOWS]);
        answer(outcome.map(|_| ()))
    }
}

fn answer(outcome: Result<(), u32>) -> u32 {
    outcome.err().unwrap_or(packed(DONE, 0))
}
