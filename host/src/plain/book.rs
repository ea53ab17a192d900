//! The book, read from its end, and codes 1 to 8. A table's sections are tested by the same functions.

use super::{refuse_first, refuse_if, Refusal};
use crate::answer::*;
use crate::limits::*;

/// Sender and receiver.
pub type Transmission = (usize, usize);

#[derive(Clone, Copy, Debug, PartialEq, Eq)]
pub struct Record {
    pub id: u16,
    pub phase: u16,
    pub period: u16,
    pub deadline: u16,
    pub len: u16,
}

/// Node count, flow count and the three sections. The sections of a table are longer than what is used of them.
#[derive(Clone, Copy)]
pub struct Sections<'a> {
    pub n: usize,
    pub m: usize,
    pub rows: &'a [u8],
    pub records: &'a [u8],
    pub steps: &'a [u8],
}

pub fn two_bytes(bytes: &[u8], at: usize) -> u16 {
    u16::from_be_bytes([bytes[at], bytes[at + 1]])
}

impl Record {
    /// The record at the front of these bytes.
    pub fn of(bytes: &[u8]) -> Record {
        let field = |k: usize| two_bytes(bytes, 2 * k);
        Record { id: field(0), phase: field(1), period: field(2), deadline: field(3), len: field(4) }
    }

    pub fn bytes(&self) -> [u8; RECORD_BYTES] {
        let mut bytes = [0; RECORD_BYTES];
        let fields = [self.id, self.phase, self.period, self.deadline, self.len];
        for (place, field) in bytes.chunks_mut(2).zip(fields) {
            place.copy_from_slice(&field.to_be_bytes());
        }
        bytes
    }

    fn in_range(&self) -> bool {
        self.id != 0
            && u32::from(self.phase) <= MAX_PHASE
            && (1..=MAX_PERIOD).contains(&u32::from(self.period))
            && (1..=self.period).contains(&self.deadline)
            && (1..=MAX_LEN).contains(&usize::from(self.len))
    }
}

impl Sections<'_> {
    fn disturbs(&self, x: usize, y: usize) -> bool {
        self.rows[ROW_BYTES * x + y / 8] >> (y % 8) & 1 == 1
    }

    pub fn record(&self, i: usize) -> Record {
        Record::of(&self.records[RECORD_BYTES * i..])
    }

    fn step(&self, k: usize) -> Transmission {
        (usize::from(self.steps[STEP_BYTES * k]), usize::from(self.steps[STEP_BYTES * k + 1]))
    }

    /// How many steps the plans of the first `flows` flows have together.
    pub fn steps_before(&self, flows: usize) -> usize {
        (0..flows).map(|i| usize::from(self.record(i).len)).sum()
    }

    pub fn test_rows(&self) -> Result<(), Refusal> {
        let bad = |x: usize| (0..MAX_NODES).any(|y| self.disturbs(x, y) && (y == x || y >= self.n));
        refuse_first(BAD_ROW, self.n, bad)
    }

    pub fn test_records(&self) -> Result<(), Refusal> {
        let repeats = |i: usize| (0..i).any(|earlier| self.record(earlier).id == self.record(i).id);
        refuse_first(BAD_RECORD, self.m, |i| !self.record(i).in_range() || repeats(i))
    }

    pub fn test_steps(&self) -> Result<(), Refusal> {
        let firsts: Vec<usize> = (0..self.m).map(|i| self.steps_before(i)).collect();
        let bad = |k: usize| {
            let (sender, receiver) = self.step(k);
            let follows = firsts.contains(&k) || self.step(k) == self.step(k - 1) || sender == self.step(k - 1).1;
            sender >= self.n || receiver >= self.n || sender == receiver || !follows
        };
        refuse_first(BAD_STEP, self.steps_before(self.m), bad)
    }

    /// The facts of sections that have passed every test.
    pub fn facts(&self) -> Facts {
        let flow = |i: usize| {
            let (from, to) = (self.steps_before(i), self.steps_before(i + 1));
            Flow { record: self.record(i), plan: (from..to).map(|k| self.step(k)).collect() }
        };
        Facts {
            disturbs: (0..self.n).map(|x| (0..self.n).map(|y| self.disturbs(x, y)).collect()).collect(),
            flows: (0..self.m).map(flow).collect(),
        }
    }
}

pub fn test_counts(n: usize, m: usize) -> Result<(), Refusal> {
    refuse_if(n == 0 || n > MAX_NODES || m > MAX_FLOWS, BAD_COUNT)
}

/// Codes 1 to 8 in their order; the sections of the book at the end of the slice.
pub fn open(slice: &[u8]) -> Result<Sections<'_>, Refusal> {
    let len = slice.len();
    refuse_if(len < TRAILER_BYTES, SHORT_SLICE)?;
    refuse_if(slice[len - MARK.len()..] != MARK, NO_MARK)?;

    let trailer = &slice[len - TRAILER_BYTES..];
    let (n, m) = (usize::from(trailer[6]), usize::from(trailer[7]));
    test_counts(n, m)?;

    let distance = |k: usize| i64::from(two_bytes(trailer, 2 * k));
    let (rows, records, steps) = (distance(0), distance(1), distance(2));
    refuse_if(
        rows - records != (ROW_BYTES * n) as i64
            || records - steps != (RECORD_BYTES * m) as i64
            || steps < TRAILER_BYTES as i64
            || steps % 2 == 1
            || rows > len as i64,
        BAD_DISTANCE,
    )?;

    let from = |back: i64| len - back as usize;
    let sections = Sections {
        n,
        m,
        rows: &slice[from(rows)..from(records)],
        records: &slice[from(records)..from(steps)],
        steps: &slice[from(steps)..len - TRAILER_BYTES],
    };
    sections.test_rows()?;
    sections.test_records()?;
    refuse_if(steps as usize != STEP_BYTES * sections.steps_before(m) + TRAILER_BYTES, BAD_LENGTHS)?;
    sections.test_steps()?;
    Ok(sections)
}

/// What a valid book says, as lists.
#[derive(Clone)]
pub struct Facts {
    pub disturbs: Vec<Vec<bool>>,
    pub flows: Vec<Flow>,
}

#[derive(Clone)]
pub struct Flow {
    pub record: Record,
    pub plan: Vec<Transmission>,
}

/// The facts of a book that is known to be valid.
pub fn facts(book: &[u8]) -> Facts {
    open(book).expect("a valid book").facts()
}
