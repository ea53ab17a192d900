//! The five calls on a table, and check of a book, as requests to the proved program `requests`, whose source says how the bytes lie, and
//! its answers.

use crate::answer::*;
use crate::call::Kind;
use crate::limits::*;
use crate::memory::{Newcomer, PlanBytes, Table, TABLE_BYTES};
use crate::plain::book::Record;
use crate::plain::table::{self, add, read, remove, write};
use crate::plain::{self, run, Refusal};
use crate::planner::Tables;
use crate::tally::Answers;
use std::fmt;
use std::io::{self, Read};

/// A bound in an answer of the program.
const BOUND_BYTES: usize = 2;
/// What the bytes of a table hold before a planner hands one back there.
const UNTOUCHED: u8 = 0xEE;

#[derive(Clone, Debug)]
pub enum Request {
    Read { slice: Vec<u8> },
    Write { table: Table, buffer: Vec<u8> },
    Add { table: Table, place: u64, record: Record, plan: PlanBytes },
    Remove { table: Table, place: u64 },
    Check { slice: Vec<u8> },
    CheckTable { table: Table },
}

const OLD_OR_NEW: &[&str] = &["old table", "new table"];
const ALONE_OR_AHEAD: &[&str] = &["alone", "ahead of 14 or 15"];
const RIGHT_OR_WRONG: &[&str] = &["right figures", "wrong figures"];

/// The calls in the order of their numbers.
pub const CALLS: [Answers; 6] = [
    Answers { call: "read", codes: &[DONE, 1, 2, 3, 4, 5, 6, 7, 8], reasons: &[] },
    Answers { call: "write", codes: &[DONE, 3, 5, 6, 8, SHORT_MEMORY], reasons: &[(DONE, RIGHT_OR_WRONG)] },
    Answers {
        call: "add",
        codes: &[DONE, 3, 5, BAD_RECORD, BAD_STEP, BAD_FIGURE, TABLE_FULL, BAD_PLACE, NO_BOUND],
        reasons: &[(BAD_RECORD, OLD_OR_NEW), (BAD_STEP, OLD_OR_NEW), (BAD_FIGURE, ALONE_OR_AHEAD)],
    },
    Answers {
        call: "remove",
        codes: &[DONE, 3, 5, 6, 8, BAD_FIGURE, BAD_PLACE],
        reasons: &[(BAD_FIGURE, ALONE_OR_AHEAD)],
    },
    Kind::Check.answers(),
    Answers {
        call: "check of a table",
        codes: &[DONE, 3, 5, 6, 8, NO_BOUND],
        reasons: &[(DONE, RIGHT_OR_WRONG), (NO_BOUND, RIGHT_OR_WRONG)],
    },
];

/// The places of those calls that a planner may have.
pub const OF_A_PLANNER: [usize; 3] = [0, 2, 5];

/// An answer, and the memory that comes with it: the table or the bounds that a call returns, or the whole buffer that was written.
#[derive(Clone, Debug, PartialEq, Eq)]
pub struct Reply {
    pub code: u32,
    pub number: u64,
    pub memory: Vec<u8>,
}

impl Request {
    /// The place of its call in `CALLS`.
    pub fn call(&self) -> usize {
        match self {
            Request::Read { .. } => 0,
            Request::Write { .. } => 1,
            Request::Add { .. } => 2,
            Request::Remove { .. } => 3,
            Request::Check { .. } => 4,
            Request::CheckTable { .. } => 5,
        }
    }

    /// The same request with another table, if it hands one over.
    pub fn on(&self, other: &Table) -> Request {
        let mut request = self.clone();
        match &mut request {
            Request::Read { .. } | Request::Check { .. } => {}
            Request::Write { table, .. }
            | Request::Add { table, .. }
            | Request::Remove { table, .. }
            | Request::CheckTable { table } => table.clone_from(other),
        }
        request
    }

    pub fn bytes(&self) -> Vec<u8> {
        let mut bytes = vec![self.call() as u8 + 1];
        match self {
            Request::Read { slice } | Request::Check { slice } => put_part(&mut bytes, slice),
            Request::Write { table, buffer } => {
                bytes.extend(table.bytes());
                put_part(&mut bytes, buffer);
            }
            Request::Add { table, place, record, plan } => {
                bytes.extend(table.bytes());
                bytes.extend(place.to_be_bytes());
                bytes.extend(record.bytes());
                bytes.extend(plan);
            }
            Request::Remove { table, place } => {
                bytes.extend(table.bytes());
                bytes.extend(place.to_be_bytes());
            }
            Request::CheckTable { table } => bytes.extend(table.bytes()),
        }
        bytes
    }

    /// The request that these bytes are.
    pub fn from_bytes(bytes: &mut impl Read) -> io::Result<Request> {
        let [call] = taken(bytes)?;
        Ok(match call {
            1 => Request::Read { slice: taken_part(bytes)? },
            2 => Request::Write { table: taken_table(bytes)?, buffer: taken_part(bytes)? },
            3 => Request::Add {
                table: taken_table(bytes)?,
                place: u64::from_be_bytes(taken(bytes)?),
                record: Record::of(&taken::<RECORD_BYTES>(bytes)?),
                plan: taken(bytes)?,
            },
            4 => Request::Remove { table: taken_table(bytes)?, place: u64::from_be_bytes(taken(bytes)?) },
            5 => Request::Check { slice: taken_part(bytes)? },
            6 => Request::CheckTable { table: taken_table(bytes)? },
            _ => return Err(io::ErrorKind::InvalidData.into()),
        })
    }

    /// Which of the two reasons for a code holds of what is handed in; 0 where the code has but one. The old table is tested ahead of
    /// the new one, and its figures ahead of the place.
    pub fn reason(&self, code: u32) -> usize {
        usize::from(match (self, code) {
            (Request::Add { table, .. }, BAD_RECORD | BAD_STEP) => table.passes(),
            (Request::Add { table, place, .. }, BAD_FIGURE) => {
                usize::from(table.m) == MAX_FLOWS || *place > u64::from(table.m)
            }
            (Request::Remove { table, place }, BAD_FIGURE) => *place >= u64::from(table.m),
            (Request::Write { table, .. }, DONE) | (Request::CheckTable { table }, DONE | NO_BOUND) => {
                !table.is_right()
            }
            _ => false,
        })
    }

    /// How many bytes of memory come with the answer.
    fn memory(&self) -> usize {
        match self {
            Request::Write { buffer, .. } => buffer.len(),
            Request::Check { .. } | Request::CheckTable { .. } => BOUND_BYTES * MAX_FLOWS,
            _ => TABLE_BYTES,
        }
    }

    /// The next answer of the proved program, which is one to this request.
    pub fn reply_from(&self, answers: &mut impl Read) -> io::Result<Reply> {
        let code = u32::from(u16::from_be_bytes(taken(answers)?));
        let number = u64::from_be_bytes(taken(answers)?);
        let mut memory = vec![0; self.memory()];
        answers.read_exact(&mut memory)?;
        Ok(Reply { code, number, memory })
    }

    /// The answer of `plain`.
    pub fn reply_of_plain(&self) -> Reply {
        let (answer, memory) = match self {
            Request::Read { slice } => with_bytes(read(slice)),
            Request::Write { table, buffer } => {
                let mut buffer = buffer.clone();
                (write(table, &mut buffer), buffer)
            }
            Request::Add { table, place, record, plan } => with_bytes(add(table, *place as usize, *record, plan)),
            Request::Remove { table, place } => with_bytes(remove(table, *place as usize)),
            Request::Check { slice } => with_bounds(run::check(slice)),
            Request::CheckTable { table } => with_bounds(table::check(table)),
        };
        Reply::new(answer, memory)
    }

    /// The answer of a planner, if it has the call.
    pub fn reply_of(&self, tables: &dyn Tables) -> Option<Reply> {
        let (mut bytes, mut bounds) = ([UNTOUCHED; TABLE_BYTES], [0; MAX_FLOWS]);
        let answer = match self {
            Request::Read { slice } => tables.read(slice, &mut bytes),
            Request::Add { table, place, record, plan } => {
                let newcomer = Newcomer { place: *place as usize, record: record.bytes(), plan: *plan };
                tables.add(&table.bytes(), &newcomer, &mut bytes)
            }
            Request::CheckTable { table } => {
                let answer = tables.check_table(&table.bytes(), &mut bounds);
                return Some(Reply::new(answer, bound_bytes(&bounds)));
            }
            _ => return None,
        };
        Some(Reply::new(answer, bytes.to_vec()))
    }
}

impl Reply {
    fn new(answer: u32, memory: Vec<u8>) -> Reply {
        Reply { code: code_of(answer), number: number_of(answer) as u64, memory }
    }

    /// Code and number as one, as the calls for C answer them.
    pub fn answer(&self) -> u32 {
        packed(self.code, self.number as usize)
    }

    pub fn bytes(&self) -> Vec<u8> {
        [&(self.code as u16).to_be_bytes(), &self.number.to_be_bytes()[..], &self.memory].concat()
    }

    /// What is not the same in another answer, in words.
    pub fn unlike(&self, other: &Reply) -> Option<String> {
        let at = self.memory.iter().zip(&other.memory).position(|(ours, theirs)| ours != theirs);
        let place = |at: usize| format!("memory unlike first at {at}: {} and {}", self.memory[at], other.memory[at]);
        (self != other).then(|| format!("{self} and {other}; {}", at.map_or("memory alike".into(), place)))
    }
}

impl fmt::Display for Reply {
    fn fmt(&self, out: &mut fmt::Formatter) -> fmt::Result {
        write!(out, "code {} number {}", self.code, self.number)
    }
}

fn with_bytes((answer, table): (u32, Table)) -> (u32, Vec<u8>) {
    (answer, table.bytes().to_vec())
}

/// Refused, all bounds are 0.
fn with_bounds(checked: Result<[u16; MAX_FLOWS], Refusal>) -> (u32, Vec<u8>) {
    let bounds = checked.unwrap_or([0; MAX_FLOWS]);
    (plain::answer(checked.map(|_| 0)), bound_bytes(&bounds))
}

fn bound_bytes(bounds: &[u16; MAX_FLOWS]) -> Vec<u8> {
    bounds.iter().flat_map(|bound| bound.to_be_bytes()).collect()
}

fn put_part(bytes: &mut Vec<u8>, part: &[u8]) {
    bytes.extend((part.len() as u16).to_be_bytes());
    bytes.extend(part);
}

fn taken<const N: usize>(bytes: &mut impl Read) -> io::Result<[u8; N]> {
    let mut part = [0; N];
    bytes.read_exact(&mut part)?;
    Ok(part)
}

fn taken_part(bytes: &mut impl Read) -> io::Result<Vec<u8>> {
    let mut part = vec![0; usize::from(u16::from_be_bytes(taken(bytes)?))];
    bytes.read_exact(&mut part)?;
    Ok(part)
}

fn taken_table(bytes: &mut impl Read) -> io::Result<Table> {
    Ok(Table::from_bytes(&taken(bytes)?))
}
