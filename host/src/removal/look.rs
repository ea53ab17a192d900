//! What the calls say of a table: the answers and bounds of both checks, its book, and the grants of the first slots of a run.

use super::Calls;
use crate::answer::{code_of, number_of, packed, DONE};
use crate::limits::*;
use crate::memory::Table;
use crate::plain::book::two_bytes;
use crate::request::{Reply, Request};

pub type Grant = [u8; GRANT_BYTES];

const LONGEST_BOOK: usize =
    ROW_BYTES * MAX_NODES + RECORD_BYTES * MAX_FLOWS + STEP_BYTES * MAX_LEN * MAX_FLOWS + TRAILER_BYTES;

pub struct Look {
    /// The ids of the flows, from the highest priority down.
    pub ids: Vec<u16>,
    pub by_table: Reply,
    pub written: Reply,
    /// Check of the book that was written.
    pub by_book: Reply,
    /// The grants of each slot in the order in which they were written, or the call of the run that was refused.
    pub slots: Result<Vec<Vec<Grant>>, String>,
}

impl Look {
    /// The book that was written.
    pub fn book(&self) -> &[u8] {
        book_in(&self.written)
    }

    /// The first of the calls that an accepted table passes that was refused, in words.
    pub fn refused(&self) -> Option<String> {
        let calls = [("the check of the table", &self.by_table), ("write", &self.written), ("check", &self.by_book)];
        let refused = calls.iter().find(|(_, reply)| reply.code != DONE);
        refused.map(|(call, reply)| format!("{call} answers {reply}"))
    }
}

/// The table that a call handed back.
pub fn table_in(memory: &[u8]) -> Table {
    Table::from_bytes(memory.try_into().expect("as many bytes as a table has"))
}

/// The bound of flow l in the answer of a check.
pub fn bound(checked: &Reply, l: usize) -> u16 {
    two_bytes(&checked.memory, 2 * l)
}

pub fn id(grant: &Grant) -> u16 {
    two_bytes(grant, 0)
}

fn book_in(written: &Reply) -> &[u8] {
    match written.code {
        DONE => written.memory.get(..written.number as usize).unwrap_or_default(),
        _ => &[],
    }
}

/// What the calls say of each of these tables, and so many slots of its run.
pub fn looks(calls: &Calls, tables: &[Table], slots: usize) -> Result<Vec<Look>, String> {
    let asked = |request: fn(&Table) -> Request| calls.ask(&tables.iter().map(request).collect::<Vec<_>>());
    let by_table = asked(|table| Request::CheckTable { table: table.clone() })?;
    let written = asked(|table| Request::Write { table: table.clone(), buffer: vec![0; LONGEST_BOOK] })?;
    let check = |reply: &Reply| Request::Check { slice: book_in(reply).to_vec() };
    let by_book = calls.ask(&written.iter().map(check).collect::<Vec<_>>())?;
    let answers = by_table.into_iter().zip(written).zip(by_book);
    let look = |(table, ((by_table, written), by_book)): (&Table, _)| {
        let sections = table.sections();
        let ids: Vec<u16> = (0..sections.m).map(|i| sections.record(i).id).collect();
        let slots = run(calls, book_in(&written), ids.len(), slots);
        Look { ids, by_table, written, by_book, slots }
    };
    Ok(tables.iter().zip(answers).map(look).collect())
}

/// The grants of the first slots of a book.
fn run(calls: &Calls, book: &[u8], flows: usize, slots: usize) -> Result<Vec<Vec<Grant>>, String> {
    let (mut area, mut buffer) = ([0; AREA_BYTES], vec![0; GRANT_BYTES * flows]);
    for (call, answer) in [("check", calls.planner.check(book)), ("start", calls.planner.start(book, &mut area))] {
        if answer != packed(DONE, 0) {
            return Err(format!("{call} for C"));
        }
    }
    let slot = |slot: usize| {
        let answer = (calls.advance)(calls.planner, book, &mut area, &mut buffer);
        let (code, number) = (code_of(answer), number_of(answer));
        if code != DONE || number > flows {
            return Err(format!("slot {slot}, code {code} number {number}"));
        }
        Ok(buffer.chunks(GRANT_BYTES).take(number).map(|grant| grant.try_into().expect("nine bytes")).collect())
    };
    (0..slots).map(slot).collect()
}
