//! The table in memory that the calls on a table are handed, and its bytes.

use crate::limits::*;

const TABLE_ROWS: usize = ROW_BYTES * MAX_NODES;
const TABLE_RECORDS: usize = RECORD_BYTES * MAX_FLOWS;
const TABLE_STEPS: usize = STEP_BYTES * MAX_LEN * MAX_FLOWS;
const TABLE_FIGURES: usize = MAX_FLOWS * MAX_FLOWS;
/// All bytes of a table: n, m, its rows, records, steps and figures, unused places too.
pub const TABLE_BYTES: usize = 2 + TABLE_ROWS + TABLE_RECORDS + TABLE_STEPS + TABLE_FIGURES;
/// The step places handed in with a flow; those past its L are ignored.
pub const PLAN_BYTES: usize = STEP_BYTES * MAX_LEN;

pub type TableBytes = [u8; TABLE_BYTES];
pub type PlanBytes = [u8; PLAN_BYTES];

/// The book's sections in places of fixed size, and I(l, h) for each flow l and each flow h above it. What stands in unused places,
/// and in those of other figures, says nothing.
#[derive(Clone, Debug, PartialEq, Eq)]
pub struct Table {
    pub n: u8,
    pub m: u8,
    pub rows: [u8; TABLE_ROWS],
    pub records: [u8; TABLE_RECORDS],
    pub steps: [u8; TABLE_STEPS],
    pub figures: [u8; TABLE_FIGURES],
}

/// A flow that is to come in at a place.
pub struct Newcomer {
    pub place: usize,
    pub record: [u8; RECORD_BYTES],
    pub plan: PlanBytes,
}

/// The place of I(l, h) among the figures.
pub fn figure_at(l: usize, h: usize) -> usize {
    MAX_FLOWS * l + h
}

impl Table {
    pub fn zeros() -> Table {
        Table {
            n: 0,
            m: 0,
            rows: [0; TABLE_ROWS],
            records: [0; TABLE_RECORDS],
            steps: [0; TABLE_STEPS],
            figures: [0; TABLE_FIGURES],
        }
    }

    pub fn from_bytes(bytes: &TableBytes) -> Table {
        let rest = &mut &bytes[..];
        let [n, m] = cut(rest);
        Table { n, m, rows: cut(rest), records: cut(rest), steps: cut(rest), figures: cut(rest) }
    }

    pub fn bytes(&self) -> TableBytes {
        let mut bytes = [0; TABLE_BYTES];
        self.put(&mut bytes);
        bytes
    }

    pub fn put(&self, bytes: &mut TableBytes) {
        let mut rest = &mut bytes[..];
        for section in [&[self.n, self.m], &self.rows[..], &self.records, &self.steps, &self.figures] {
            let (part, after) = rest.split_at_mut(section.len());
            part.copy_from_slice(section);
            rest = after;
        }
    }
}

/// The next bytes, cut off from the front of the rest.
fn cut<const N: usize>(rest: &mut &[u8]) -> [u8; N] {
    let (part, after) = rest.split_at(N);
    *rest = after;
    part.try_into().expect("as many as asked for")
}
