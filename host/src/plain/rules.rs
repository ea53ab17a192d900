//! Conflict, interference and the response bound, by trying what the definitions speak of.

use super::book::{Facts, Flow, Record, Transmission};
use super::Refusal;
use crate::answer::NO_BOUND;
use crate::limits::MAX_FLOWS;

/// A conflict matrix: a row for each step of l, a column for each step of h.
pub type Matrix = Vec<Vec<bool>>;

/// How many choices are still tried one by one; beyond it the recursion takes over.
const CHOICES_TRIED: u64 = 500;

impl Facts {
    /// A to B and C to D conflict if the four nodes are not all distinct, or C disturbs B, or A disturbs D; and, since B
    /// and D acknowledge in the same slot, if D disturbs A, or B disturbs C.
    pub fn conflict(&self, (a, b): Transmission, (c, d): Transmission) -> bool {
        let pairs = [(a, b), (a, c), (a, d), (b, c), (b, d), (c, d)];
        let heard = [(c, b), (a, d), (d, a), (b, c)];
        pairs.iter().any(|(x, y)| x == y) || heard.iter().any(|&(x, y)| self.disturbs[x][y])
    }

    fn matrix(&self, l: &Flow, h: &Flow) -> Matrix {
        l.plan.iter().map(|&low| h.plan.iter().map(|&high| self.conflict(low, high)).collect()).collect()
    }

    /// I(l, h), for flows by their places.
    pub fn interference(&self, l: usize, h: usize) -> u64 {
        interference(&self.matrix(&self.flows[l], &self.flows[h]))
    }

    /// I(l, h) for each flow h above flow l.
    pub fn line(&self, l: usize) -> Vec<u64> {
        (0..l).map(|h| self.interference(l, h)).collect()
    }

    /// The smallest admissible R of flow l, found by counting up from L to D. Of each flow h above it, `figures` has I(l, h), and
    /// `carries` how long an instance of h may be carried into the window.
    fn smallest(&self, l: usize, figures: &[u64], carries: &[u16]) -> Option<u16> {
        let own = self.flows[l].record;
        let above = self.flows.iter().zip(figures).zip(carries);
        let above: Vec<(u64, u64, u64)> =
            above.map(|((flow, &i), &carry)| (u64::from(carry), u64::from(flow.record.period), i)).collect();
        (own.len..=own.deadline).find(|&r| {
            let r = u64::from(r);
            let waits: u64 = above.iter().map(|&(carry, p, i)| (r + carry - 1).div_ceil(p) * i).sum();
            r >= u64::from(own.len) + waits
        })
    }

    /// The bound of the flow below as many flows as there are `carries`: how long an instance of each may be carried in.
    pub fn bound_below(&self, carries: &[u16]) -> Option<u16> {
        let l = carries.len();
        self.smallest(l, &self.line(l), carries)
    }

    pub fn bounds(&self) -> Result<[u16; MAX_FLOWS], Refusal> {
        self.bounds_by(|l| self.line(l))
    }

    /// The bound of each flow with these figures, from the highest priority down: an instance of a flow above may be carried in up to
    /// its bound.
    pub fn bounds_by(&self, line: impl Fn(usize) -> Vec<u64>) -> Result<[u16; MAX_FLOWS], Refusal> {
        self.bounds_carrying(line, |_, bound| bound)
    }

    /// The same by the deadline count, with which no call counts: an instance of a flow above may be carried in up to its deadline.
    pub fn bounds_by_deadline(&self, line: impl Fn(usize) -> Vec<u64>) -> Result<[u16; MAX_FLOWS], Refusal> {
        self.bounds_carrying(line, |record, _| record.deadline)
    }

    /// The bound of each flow, zeros at the other places; code 9 for the first flow without one. `carry` is how long an instance of
    /// a flow with this record and this bound may be carried into the window of a flow below.
    fn bounds_carrying(
        &self,
        line: impl Fn(usize) -> Vec<u64>,
        carry: impl Fn(&Record, u16) -> u16,
    ) -> Result<[u16; MAX_FLOWS], Refusal> {
        let (mut bounds, mut carries) = ([0; MAX_FLOWS], Vec::new());
        for (l, flow) in self.flows.iter().enumerate() {
            bounds[l] = self.smallest(l, &line(l), &carries).ok_or(Refusal { code: NO_BOUND, number: l })?;
            carries.push(carry(&flow.record, bounds[l]));
        }
        Ok(bounds)
    }
}

/// The largest count of conflicting pairs that any choice reaches, the choices never going back.
pub fn interference(matrix: &Matrix) -> u64 {
    if choices(matrix.len() as u64, matrix[0].len() as u64) <= CHOICES_TRIED {
        by_choices(matrix)
    } else {
        by_recursion(matrix)
    }
}

/// How many ways there are to choose, for each of `columns` steps in order, one of `rows`, never going back.
fn choices(rows: u64, columns: u64) -> u64 {
    (1..=columns).try_fold(1u64, |ways, k| Some(ways.checked_mul(rows + k - 1)? / k)).unwrap_or(u64::MAX)
}

/// Writes out every choice and counts its conflicts.
pub fn by_choices(matrix: &Matrix) -> u64 {
    let (rows, columns) = (matrix.len(), matrix[0].len());
    let mut choice = vec![0; columns];
    let mut most = 0;
    loop {
        let count = (0..columns).filter(|&j| matrix[choice[j]][j]).count();
        most = most.max(count as u64);
        // The next choice: raise the last place that can rise, and bring all after it down to the same row.
        match (0..columns).rev().find(|&j| choice[j] + 1 < rows) {
            None => return most,
            Some(j) => {
                let row = choice[j] + 1;
                choice[j..].fill(row);
            }
        }
    }
}

/// The same figure, by recursion over (row i, column j): what the columns from j on can add with rows from i on,
/// nothing once either is used up.
pub fn by_recursion(matrix: &Matrix) -> u64 {
    let mut known = vec![vec![None; matrix[0].len()]; matrix.len()];
    worst(matrix, &mut known, 0, 0)
}

fn worst(matrix: &Matrix, known: &mut [Vec<Option<u64>>], i: usize, j: usize) -> u64 {
    if i == matrix.len() || j == matrix[0].len() {
        return 0;
    }
    if let Some(figure) = known[i][j] {
        return figure;
    }
    // Column j takes row i, or it takes a later row, and then so do all columns after it.
    let here = u64::from(matrix[i][j]) + worst(matrix, known, i, j + 1);
    let later = worst(matrix, known, i + 1, j);
    let figure = here.max(later);
    known[i][j] = Some(figure);
    figure
}
