//! The five calls on a table in memory: read, write, add, remove, check.

use super::book::{open, test_counts, Record, Sections};
use super::{refuse_first, refuse_if, Refusal};
use crate::answer::*;
use crate::limits::*;
use crate::memory::{figure_at, PlanBytes, Table};

impl Table {
    pub fn sections(&self) -> Sections<'_> {
        let (n, m) = (usize::from(self.n), usize::from(self.m));
        Sections { n, m, rows: &self.rows, records: &self.records, steps: &self.steps }
    }

    /// The figures of the flows above flow l, as they stand.
    fn line(&self, l: usize) -> Vec<u64> {
        (0..l).map(|h| u64::from(self.figures[figure_at(l, h)])).collect()
    }

    /// Whether none of codes 3, 5, 6 and 8 is given for it.
    pub fn passes(&self) -> bool {
        self.test().is_ok()
    }

    /// Whether code 17 is not given for it either.
    pub fn is_right(&self) -> bool {
        self.test_with_figures().is_ok()
    }

    /// Codes 3, 5, 6 and 8; the used parts of a table that passes.
    fn test(&self) -> Result<Used, Refusal> {
        let sections = self.sections();
        test_counts(sections.n, sections.m)?;
        sections.test_rows()?;
        sections.test_records()?;
        sections.test_steps()?;
        Ok(Used::of(&sections))
    }

    /// The same, then code 17: the first flow with a wrong figure.
    fn test_with_figures(&self) -> Result<Used, Refusal> {
        let used = self.test()?;
        let facts = self.sections().facts();
        refuse_first(BAD_FIGURE, facts.flows.len(), |l| self.line(l) != facts.line(l))?;
        Ok(used)
    }

    /// The figures of a table that passes the tests put right, and zero at all other places.
    pub fn put_right(&mut self) {
        let facts = self.sections().facts();
        self.figures.fill(0);
        for l in 0..facts.flows.len() {
            for (h, figure) in facts.line(l).into_iter().enumerate() {
                self.figures[figure_at(l, h)] = figure as u8;
            }
        }
    }

    /// Code 9, or the bounds, by the figures as they stand.
    fn bounds(&self) -> Result<[u16; MAX_FLOWS], Refusal> {
        self.sections().facts().bounds_by(|l| self.line(l))
    }
}

/// The used parts of the sections, as lists, so that a flow can be put in or taken out.
struct Used {
    n: usize,
    rows: Vec<u8>,
    records: Vec<Record>,
    plans: Vec<Vec<u8>>,
}

impl Used {
    fn of(sections: &Sections) -> Used {
        let place = |i: usize| STEP_BYTES * sections.steps_before(i);
        Used {
            n: sections.n,
            rows: sections.rows[..ROW_BYTES * sections.n].to_vec(),
            records: (0..sections.m).map(|i| sections.record(i)).collect(),
            plans: (0..sections.m).map(|i| sections.steps[place(i)..place(i + 1)].to_vec()).collect(),
        }
    }

    fn record_bytes(&self) -> Vec<u8> {
        self.records.iter().flat_map(|record| record.bytes()).collect()
    }

    /// The table that says the same, zero in every unused place, its figures right.
    fn table(&self) -> Table {
        let mut table = self.bare_table();
        table.put_right();
        table
    }

    /// The same without its figures.
    fn bare_table(&self) -> Table {
        let mut table = Table::zeros();
        table.n = self.n as u8;
        table.m = self.records.len() as u8;
        let (records, steps) = (self.record_bytes(), self.plans.concat());
        table.rows[..self.rows.len()].copy_from_slice(&self.rows);
        table.records[..records.len()].copy_from_slice(&records);
        table.steps[..steps.len()].copy_from_slice(&steps);
        table
    }

    fn book(&self) -> Vec<u8> {
        let (records, steps) = (self.record_bytes(), self.plans.concat());
        let steps_distance = steps.len() + TRAILER_BYTES;
        let records_distance = steps_distance + records.len();
        let rows_distance = records_distance + self.rows.len();
        let mut book = [self.rows.clone(), records, steps].concat();
        for distance in [rows_distance, records_distance, steps_distance] {
            book.extend((distance as u16).to_be_bytes());
        }
        book.extend([self.n as u8, self.records.len() as u8]);
        book.extend(MARK);
        book
    }
}

/// Codes 1 to 8. Refused: a table of zeros.
pub fn read(book: &[u8]) -> (u32, Table) {
    match open(book) {
        Ok(sections) => (packed(DONE, 0), Used::of(&sections).table()),
        Err(refusal) => (super::answer(Err(refusal)), Table::zeros()),
    }
}

/// Codes 3, 5, 6, 8, then 13. The book goes to the front of the buffer; its length is the number.
pub fn write(table: &Table, buffer: &mut [u8]) -> u32 {
    super::answer(table.test().and_then(|used| {
        let book = used.book();
        refuse_if(buffer.len() < book.len(), SHORT_MEMORY)?;
        buffer[..book.len()].copy_from_slice(&book);
        Ok(book.len())
    }))
}

/// Codes 3, 5, 6, 8 and 17 on the old table; 14; 15; 6 and 8 on the new one; 9 on the new one.
pub fn add(table: &Table, place: usize, record: Record, plan: &PlanBytes) -> (u32, Table) {
    changed(table, added(table, place, record, plan))
}

/// Codes 3, 5, 6, 8, 17; 15.
pub fn remove(table: &Table, place: usize) -> (u32, Table) {
    changed(table, removed(table, place))
}

/// Codes 3, 5, 6, 8; 9 by the figures as they stand; the bounds of the m flows, zeros elsewhere.
pub fn check(table: &Table) -> Result<[u16; MAX_FLOWS], Refusal> {
    table.test()?;
    table.bounds()
}

/// The answer with the new table, or with the table as it was handed in.
fn changed(table: &Table, outcome: Result<Table, Refusal>) -> (u32, Table) {
    match outcome {
        Ok(new) => (packed(DONE, 0), new),
        Err(refusal) => (super::answer(Err(refusal)), table.clone()),
    }
}

fn added(table: &Table, place: usize, record: Record, plan: &PlanBytes) -> Result<Table, Refusal> {
    let mut used = table.test_with_figures()?;
    let m = used.records.len();
    refuse_if(m == MAX_FLOWS, TABLE_FULL)?;
    refuse_if(place > m, BAD_PLACE)?;

    used.records.insert(place, record);
    // A plan that is too long for its place is refused by its record, before its steps are looked at.
    let records = used.record_bytes();
    Sections { n: used.n, m: m + 1, rows: &used.rows, records: &records, steps: &[] }.test_records()?;
    used.plans.insert(place, plan[..STEP_BYTES * usize::from(record.len)].to_vec());

    let mut new = used.bare_table();
    new.test()?;
    new.put_right();
    new.bounds()?;
    Ok(new)
}

fn removed(table: &Table, place: usize) -> Result<Table, Refusal> {
    let mut used = table.test_with_figures()?;
    refuse_if(place >= used.records.len(), BAD_PLACE)?;
    used.records.remove(place);
    used.plans.remove(place);
    Ok(used.table())
}
