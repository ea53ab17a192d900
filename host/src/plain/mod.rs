//! The independent scheduler: the rules put down as directly as they read, with lists and plain searches, and with
//! none of the means that make a planner fast.

pub mod book;
pub mod rules;
pub mod run;
pub mod table;

use crate::answer::{packed, DONE};
use crate::limits::MAX_FLOWS;
use crate::memory::{Newcomer, Table, TableBytes};
use crate::planner::{Planner, Tables};
use book::Record;

/// Why a call is refused: the code and the number that goes with it.
#[derive(Clone, Copy, Debug, PartialEq, Eq)]
pub struct Refusal {
    pub code: u32,
    pub number: usize,
}

/// A refusal whose number is 0.
pub(crate) fn refuse_if(bad: bool, code: u32) -> Result<(), Refusal> {
    refuse_first(code, 1, |_| bad)
}

/// A refusal that names the first of `count` things that is bad.
pub(crate) fn refuse_first(code: u32, count: usize, bad: impl Fn(usize) -> bool) -> Result<(), Refusal> {
    match (0..count).find(|&i| bad(i)) {
        Some(number) => Err(Refusal { code, number }),
        None => Ok(()),
    }
}

/// The one number that a call answers.
pub fn answer(outcome: Result<usize, Refusal>) -> u32 {
    match outcome {
        Ok(number) => packed(DONE, number),
        Err(refusal) => packed(refusal.code, refusal.number),
    }
}

pub struct Plain;

impl Planner for Plain {
    fn name(&self) -> &'static str {
        "plain"
    }

    fn check(&self, book: &[u8]) -> u32 {
        answer(run::check(book).map(|_| 0))
    }

    fn start(&self, book: &[u8], area: &mut [u8]) -> u32 {
        answer(run::start(book, area).map(|_| 0))
    }

    fn advance(&self, book: &[u8], area: &mut [u8], grants: &mut [u8]) -> u32 {
        answer(run::advance(book, area, grants))
    }

    fn why(&self, book: &[u8], area: &[u8], place: usize) -> u32 {
        answer(run::why(book, area, place))
    }

    fn tables(&self) -> Option<&dyn Tables> {
        Some(self)
    }
}

impl Tables for Plain {
    fn read(&self, book: &[u8], table: &mut TableBytes) -> u32 {
        hand_back(table::read(book), table)
    }

    fn add(&self, table: &TableBytes, newcomer: &Newcomer, added: &mut TableBytes) -> u32 {
        let record = Record::of(&newcomer.record);
        hand_back(table::add(&Table::from_bytes(table), newcomer.place, record, &newcomer.plan), added)
    }

    fn check_table(&self, table: &TableBytes, bounds: &mut [u16; MAX_FLOWS]) -> u32 {
        let checked = table::check(&Table::from_bytes(table));
        *bounds = checked.unwrap_or([0; MAX_FLOWS]);
        answer(checked.map(|_| 0))
    }
}

fn hand_back((answer, table): (u32, Table), bytes: &mut TableBytes) -> u32 {
    table.put(bytes);
    answer
}
