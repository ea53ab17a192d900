//! A book in the making: its facts as lists, and its bytes.

use crate::limits::*;
use crate::plain::book::{facts, Facts, Record};

#[derive(Clone)]
pub struct DraftFlow {
    pub id: u16,
    pub phase: u16,
    pub period: u16,
    pub deadline: u16,
    pub plan: Vec<(u8, u8)>,
}

impl DraftFlow {
    pub fn record(&self) -> Record {
        let len = self.plan.len() as u16;
        Record { id: self.id, phase: self.phase, period: self.period, deadline: self.deadline, len }
    }
}

#[derive(Clone)]
pub struct Draft {
    /// Row x is a mask of the nodes that x disturbs; there are as many rows as nodes.
    pub rows: Vec<u64>,
    pub flows: Vec<DraftFlow>,
}

impl Draft {
    pub fn nodes(&self) -> usize {
        self.rows.len()
    }

    pub fn steps(&self) -> usize {
        self.flows.iter().map(|flow| flow.plan.len()).sum()
    }

    pub fn records_at(&self) -> usize {
        ROW_BYTES * self.nodes()
    }

    pub fn steps_at(&self) -> usize {
        self.records_at() + RECORD_BYTES * self.flows.len()
    }

    pub fn trailer_at(&self) -> usize {
        self.steps_at() + STEP_BYTES * self.steps()
    }

    pub fn bytes(&self) -> Vec<u8> {
        let mut book = Vec::new();
        self.rows.iter().for_each(|row| book.extend(row.to_le_bytes()));
        self.flows.iter().for_each(|flow| book.extend(flow.record().bytes()));
        for (sender, receiver) in self.flows.iter().flat_map(|flow| &flow.plan) {
            book.extend([*sender, *receiver]);
        }
        let end = self.trailer_at() + TRAILER_BYTES;
        for distance in [end, end - self.records_at(), end - self.steps_at()] {
            book.extend((distance as u16).to_be_bytes());
        }
        book.extend([self.nodes() as u8, self.flows.len() as u8]);
        book.extend(MARK);
        book
    }

    /// The facts of a draft whose bytes are a valid book.
    pub fn facts(&self) -> Facts {
        facts(&self.bytes())
    }
}

/// Rows in which nodes disturb each other when they differ by 1.
pub fn neighbours(nodes: usize) -> Vec<u64> {
    let all = u64::MAX >> (MAX_NODES - nodes);
    (0..nodes).map(|x| ((1u64 << x) << 1 | (1u64 << x) >> 1) & all).collect()
}

/// Book A of the rules.
pub fn book_a() -> Draft {
    let flow = |id, period, plan| DraftFlow { id, phase: 0, period, deadline: period, plan };
    Draft {
        rows: neighbours(6),
        flows: vec![flow(7, 10, vec![(0, 1), (1, 2), (2, 3)]), flow(9, 12, vec![(5, 4), (4, 3), (3, 2)])],
    }
}

/// Book B of the rules.
pub fn book_b() -> Draft {
    let flow = |id, phase, period, deadline, plan| DraftFlow { id, phase, period, deadline, plan };
    Draft {
        rows: neighbours(5),
        flows: vec![
            flow(1, 0, 20, 5, vec![(0, 1); 5]),
            flow(2, 0, 10, 10, vec![(1, 2)]),
            flow(3, 5, 20, 7, vec![(3, 4); 5]),
        ],
    }
}

/// Three flows along a line of four nodes, none of which disturbs another: the first keeps the second waiting and the second the third,
/// while the first and the third may go at once. Deadlines are at their bounds.
pub fn chain() -> Draft {
    let flow = |id, deadline, plan| DraftFlow { id, phase: 0, period: 10, deadline, plan };
    Draft {
        rows: vec![0; 4],
        flows: vec![flow(1, 1, vec![(0, 1)]), flow(2, 2, vec![(1, 2)]), flow(3, 2, vec![(2, 3)])],
    }
}

/// The chain without its first flow.
pub fn rest_of_chain() -> Draft {
    let mut rest = chain();
    rest.flows.remove(0);
    rest
}
