//! Codes 1 to 8, and the parts of a book that has passed them.

use crate::answer::*;
use crate::limits::*;
use crate::memory::Table;

/// A book that has passed codes 1 to 8, or the used parts of a table that has passed 3, 5, 6 and 8.
pub struct Book<'a> {
    pub rows: &'a [u8],
    pub records: &'a [u8],
    pub steps: &'a [u8],
    /// The plan length of each flow, 0 at unused places: also what the run area holds when every flow is idle.
    pub lens: [u8; MAX_FLOWS],
}

#[derive(Clone, Copy)]
pub struct Record {
    id: u16,
    pub phase: u32,
    pub period: u32,
    pub deadline: u32,
    pub len: u32,
}

impl Record {
    pub fn read(bytes: &[u8]) -> Record {
        let field = |k: usize| u16::from_be_bytes([bytes[2 * k], bytes[2 * k + 1]]);
        let wide = |k: usize| u32::from(field(k));
        Record { id: field(0), phase: wide(1), period: wide(2), deadline: wide(3), len: wide(4) }
    }

    pub fn out_of_range(&self) -> bool {
        self.id == 0
            || self.phase > MAX_PHASE
            || self.period.wrapping_sub(1) >= MAX_PERIOD
            || self.deadline.wrapping_sub(1) >= self.period
            || self.len.wrapping_sub(1) >= MAX_LEN as u32
    }
}

pub fn bit(node: u8) -> u64 {
    1 << (node % MAX_NODES as u8)
}

impl<'a> Book<'a> {
    pub fn open(slice: &'a [u8]) -> Result<Book<'a>, u32> {
        let Some(at) = slice.len().checked_sub(TRAILER_BYTES) else {
            return Err(packed(SHORT_SLICE, 0));
        };
        let (front, trailer) = slice.split_at(at);
        if trailer[8..] != MARK {
            return Err(packed(NO_MARK, 0));
        }
        let (n, m) = test_counts(trailer[6], trailer[7])?;
        let distance = |k: usize| usize::from(u16::from_be_bytes([trailer[k], trailer[k + 1]]));
        let (to_rows, to_records, to_steps) = (distance(0), distance(2), distance(4));
        if to_rows != to_records + ROW_BYTES * n
            || to_records != to_steps + RECORD_BYTES * m
            || to_steps < TRAILER_BYTES
            || to_steps % STEP_BYTES != 0
            || to_rows > slice.len()
        {
            return Err(packed(BAD_DISTANCE, 0));
        }
        let (rows, rest) = front[slice.len() - to_rows..].split_at(ROW_BYTES * n);
        let (records, steps) = rest.split_at(RECORD_BYTES * m);
        let all = |bytes: usize| if steps.len() == bytes { Ok(steps) } else { Err(packed(BAD_LENGTHS, 0)) };
        Book::test(n, rows, records, all)
    }

    /// Codes 3, 5, 6 and 8 on a table.
    pub fn of_table(table: &'a Table) -> Result<Book<'a>, u32> {
        let (n, m) = test_counts(table.n, table.m)?;
        let (rows, records) = (&table.rows[..ROW_BYTES * n], &table.records[..RECORD_BYTES * m]);
        Book::test(n, rows, records, |bytes| Ok(&table.steps[..bytes]))
    }

    /// Codes 5 to 8 on the sections. `steps` has those that take up so many bytes, or code 7.
    fn test(
        n: usize,
        rows: &'a [u8],
        records: &'a [u8],
        steps: impl FnOnce(usize) -> Result<&'a [u8], u32>,
    ) -> Result<Book<'a>, u32> {
        test_rows(rows, n)?;
        let mut lens = [0; MAX_FLOWS];
        let count = test_records(records, &mut lens)?;
        let book = Book { rows, records, steps: steps(STEP_BYTES * count)?, lens };
        book.test_steps(n)?;
        Ok(book)
    }

    pub fn nodes(&self) -> usize {
        self.rows.len() / ROW_BYTES
    }

    pub fn flows(&self) -> usize {
        self.records.len() / RECORD_BYTES
    }

    pub fn record(&self, i: usize) -> Record {
        Record::read(&self.records[RECORD_BYTES * i..][..RECORD_BYTES])
    }

    /// The nodes that x disturbs.
    pub fn row(&self, x: u8) -> u64 {
        let at = ROW_BYTES * usize::from(x);
        row_mask(&self.rows[at..at + ROW_BYTES])
    }

    /// Each flow's plan, in flow order.
    pub fn plans(&self) -> impl Iterator<Item = &'a [u8]> + Clone + '_ {
        let mut rest = self.steps;
        self.lens[..self.flows()].iter().map(move |&len| {
            let (plan, after) = rest.split_at(STEP_BYTES * usize::from(len));
            rest = after;
            plan
        })
    }

    /// Code 8, through a look at all steps at once; only when that shows a fault are they taken one by one.
    fn test_steps(&self, n: usize) -> Result<(), u32> {
        if self.steps_hold(n) {
            return Ok(());
        }
        let mut before = 0;
        for plan in self.plans() {
            if let Some(k) = bad_step(plan, n) {
                return Err(packed(BAD_STEP, before + k));
            }
            before += plan.len() / STEP_BYTES;
        }
        Ok(())
    }

    /// Whether every node is one of the n, no step goes to its own sender, and the only steps that do not follow on
    /// from the step before are first steps. No branch depends on a step, so the loops run over many at a time.
    fn steps_hold(&self, n: usize) -> bool {
        let highest = self.steps.iter().fold(0, |highest: u8, &node| highest.max(node));
        let Some(next) = self.steps.get(STEP_BYTES..) else {
            return true;
        };
        let (mut to_itself, mut breaks) = (self.steps[0] == self.steps[1], 0);
        for (last, step) in self.steps.chunks_exact(STEP_BYTES).zip(next.chunks_exact(STEP_BYTES)) {
            to_itself |= sender(step) == receiver(step);
            breaks += breaks_off(last, step);
        }
        let mut at = 0;
        let mut between_plans = 0;
        for &len in &self.lens[..self.flows() - 1] {
            at += STEP_BYTES * usize::from(len);
            let (last, step) = self.steps[at - STEP_BYTES..at + STEP_BYTES].split_at(STEP_BYTES);
            between_plans += breaks_off(last, step);
        }
        usize::from(highest) < n && !to_itself && breaks == between_plans
    }
}

/// A step as one number, and its two nodes; 16 bits wide, so that as many as possible are handled together.
fn both(step: &[u8]) -> u16 {
    u16::from_le_bytes([step[0], step[1]])
}

fn sender(step: &[u8]) -> u16 {
    both(step) & 0xFF
}

fn receiver(step: &[u8]) -> u16 {
    both(step) >> 8
}

/// The first step of a plan that code 8 is for.
pub fn bad_step(plan: &[u8], n: usize) -> Option<usize> {
    // The first step is let through as a repeat of itself.
    let (mut last_sender, mut last_receiver) = (plan[0], plan[1]);
    plan.chunks_exact(STEP_BYTES).position(|step| {
        let (sender, receiver) = (step[0], step[1]);
        let goes_on = sender == last_receiver || (sender == last_sender && receiver == last_receiver);
        (last_sender, last_receiver) = (sender, receiver);
        usize::from(sender.max(receiver)) >= n || sender == receiver || !goes_on
    })
}

/// 1 if the step neither repeats the last one nor starts at its receiver.
fn breaks_off(last: &[u8], step: &[u8]) -> u16 {
    u16::from((both(step) != both(last)) & (sender(step) != receiver(last)))
}

fn row_mask(row: &[u8]) -> u64 {
    row.try_into().map_or(0, u64::from_le_bytes)
}

fn test_counts(nodes: u8, flows: u8) -> Result<(usize, usize), u32> {
    let (n, m) = (usize::from(nodes), usize::from(flows));
    if n == 0 || n > MAX_NODES || m > MAX_FLOWS {
        return Err(packed(BAD_COUNT, 0));
    }
    Ok((n, m))
}

fn test_rows(rows: &[u8], n: usize) -> Result<(), u32> {
    let beyond = u64::MAX.checked_shl(n as u32).unwrap_or(0);
    for (x, row) in rows.chunks_exact(ROW_BYTES).enumerate() {
        if row_mask(row) & (beyond | 1 << x) != 0 {
            return Err(packed(BAD_ROW, x));
        }
    }
    Ok(())
}

/// Code 6; the plan lengths, and what they come to.
fn test_records(records: &[u8], lens: &mut [u8; MAX_FLOWS]) -> Result<usize, u32> {
    let mut steps = 0;
    // Ids by their low byte: only where that was met before are the earlier ids looked through.
    let mut met = [0u64; 4];
    for (i, (bytes, len)) in records.chunks_exact(RECORD_BYTES).zip(lens).enumerate() {
        let record = Record::read(bytes);
        let (word, mark) = (usize::from(record.id >> 6) % 4, 1 << (record.id % 64));
        let repeats = met[word] & mark != 0
            && records[..RECORD_BYTES * i].chunks_exact(RECORD_BYTES).any(|earlier| earlier[..2] == bytes[..2]);
        met[word] |= mark;
        if repeats || record.out_of_range() {
            return Err(packed(BAD_RECORD, i));
        }
        *len = record.len as u8;
        steps += usize::from(*len);
    }
    Ok(steps)
}
