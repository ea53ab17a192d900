//! Interference and the response bound.

use super::book::{bit, Book, Record};
use crate::answer::*;
use crate::limits::*;

/// For one flow's plan, a word for each node: in its lower half the steps (as bits) that conflict with what the node sends,
/// in its upper half those that conflict with what it receives. A step that repeats the one before it has no bit of its
/// own: to choose it is to choose that one.
struct Columns {
    nodes: [u64; MAX_NODES],
    /// How many steps have a bit.
    len: u32,
}

/// Where the upper half of a word starts.
const UPPER: u32 = u32::BITS;

impl Columns {
    fn blank() -> Columns {
        Columns { nodes: [0; MAX_NODES], len: 0 }
    }

    /// The columns of a plan, complete for the nodes that are asked for.
    fn gather(&mut self, book: &Book, plan: &[u8], asked: u64) {
        // The part of each node in the plan: in the lower half the steps that it receives, in the upper those that it sends.
        // The words of the nodes that it disturbs, and of those that disturb it, have these halves as they are.
        let mut parts = [0u64; MAX_NODES];
        let mut taking_part = 0;
        // No step goes from a node to itself.
        let mut last = [0; STEP_BYTES];
        for step in plan.chunks_exact(STEP_BYTES) {
            if *step == last {
                continue;
            }
            last = [step[0], step[1]];
            parts[usize::from(step[0]) % MAX_NODES] |= 1 << UPPER << self.len;
            parts[usize::from(step[1]) % MAX_NODES] |= 1 << self.len;
            taking_part |= bit(step[0]) | bit(step[1]);
            self.len += 1;
        }
        for_each_node(taking_part, |node| {
            let part = parts[node];
            // Whatever it does itself conflicts with both.
            self.nodes[node] |= part | part.rotate_left(UPPER);
            for_each_node(book.row(node as u8) & asked, |disturbed| self.nodes[disturbed] |= part);
        });
        for_each_node(asked, |node| {
            let column = &mut self.nodes[node];
            for_each_node(book.row(node as u8) & taking_part, |disturbed| *column |= parts[disturbed]);
        });
    }

    /// The steps that a step of another plan conflicts with.
    fn marks(&self, step: &[u8]) -> u32 {
        let [sender, receiver] = [step[0], step[1]].map(|node| self.nodes[usize::from(node) % MAX_NODES]);
        sender as u32 | (receiver >> UPPER) as u32
    }
}

fn for_each_node(mut nodes: u64, mut act: impl FnMut(usize)) {
    while nodes != 0 {
        act(nodes.trailing_zeros() as usize);
        nodes &= nodes - 1;
    }
}

/// The binary digits of a rise: the most that they hold is more than the steps of a plan can take.
const DIGITS: usize = 6;

/// Works out higher plans side by side. Each has a lane in a word: a place for each bit of the columns, then its end. The
/// j-th word has the marks of every plan's j-th step.
///
/// With the steps so far, choices up to a place reach some worst count, and the place has by how much that count rises
/// there. A further step raises it by one from each of its marks on, up to the next rise, which becomes one less: so a
/// carry starts at each mark, goes on where the count is level, and ends at a rise. At an end stands the most that the
/// digits hold, and what is taken there is the interference. Returned are the digits, each for all places.
///
/// It goes into its callers whatever else is built: left to itself, the compiler puts it into some and not into others.
#[inline(always)]
fn worked_out(words: &[u64], ends: u64) -> [u64; DIGITS] {
    let mut digits = [ends; DIGITS];
    let mut level = !ends;
    for marks in words {
        let passing = marks | level;
        let sum = passing + marks;
        let (more, less) = (marks & !sum, sum & !passing);
        let single = digits[0] & !digits[1..].iter().fold(0, |any, digit| any | digit);
        level = (level & !more) | (less & single);
        let mut change = more | less;
        for digit in &mut digits {
            let carries = *digit ^ less;
            *digit ^= change;
            change &= carries;
        }
    }
    digits
}

/// What has been taken at an end.
#[inline(always)]
fn taken(digits: &[u64; DIGITS], end: u32) -> u32 {
    digits.iter().rev().fold(0, |taken, digit| taken << 1 | (!digit >> end & 1) as u32)
}

/// Flows let in one by one, highest priority first, and what the bound of the next one reads of each.
pub struct Admission {
    /// What an instance costs the next flow.
    costs: [u32; MAX_FLOWS],
    /// How long a window may be before a second instance counts: the period less what is carried in, which is the bound less 1.
    alone: [u32; MAX_FLOWS],
    periods: [u32; MAX_FLOWS],
    count: usize,
}

impl Admission {
    pub fn new() -> Admission {
        Admission { costs: [0; MAX_FLOWS], alone: [0; MAX_FLOWS], periods: [0; MAX_FLOWS], count: 0 }
    }

    /// What each flow that is in costs the next one.
    pub fn costs(&mut self) -> &mut [u32] {
        &mut self.costs[..self.count]
    }

    /// The bound of the next flow, which is in from then on; none within its deadline is code 9.
    #[inline]
    pub fn admit(&mut self, record: Record) -> Result<u32, u32> {
        let l = self.count;
        let bound = self.bound(record).ok_or(packed(NO_BOUND, l))?;
        self.alone[l] = record.period + 1 - bound;
        self.periods[l] = record.period;
        self.count += 1;
        Ok(bound)
    }

    /// R rises from L and one instance of each flow above, which counts in any window. Whose second one counts is told for many flows at
    /// a time, without a branch; only where a third one does are they divided out.
    #[inline]
    fn bound(&self, record: Record) -> Option<u32> {
        let above = 0..self.count;
        let (costs, alone, periods) = (&self.costs[above.clone()], &self.alone[above.clone()], &self.periods[above]);
        let least = record.len + costs.iter().sum::<u32>();
        let mut bound = least;
        while bound <= record.deadline {
            let (mut needed, mut thirds) = (least, 0);
            for ((&cost, &alone), &period) in costs.iter().zip(alone).zip(periods) {
                needed += if bound > alone { cost } else { 0 };
                thirds |= if bound > alone + period { cost } else { 0 };
            }
            if thirds != 0 {
                let all = costs.iter().zip(alone).zip(periods);
                let instances = |alone: u32, period: u32| (bound + 2 * period - alone - 1) / period;
                needed =
                    record.len + all.map(|((&cost, &alone), &period)| cost * instances(alone, period)).sum::<u32>();
            }
            if needed == bound {
                return Some(bound);
            }
            bound = needed;
        }
        None
    }
}

fn nodes_of(plan: &[u8]) -> u64 {
    plan.iter().fold(0, |nodes, &node| nodes | bit(node))
}

impl Book<'_> {
    /// Code 9, or acceptance.
    pub fn admit(&self) -> Result<(), u32> {
        let mut admission = Admission::new();
        // The nodes of the flows above.
        let mut nodes = 0;
        for (l, plan) in self.plans().enumerate() {
            self.weigh(plan, self.plans(), nodes, admission.costs(), |cost, taken| *cost = taken);
            admission.admit(self.record(l))?;
            nodes |= nodes_of(plan);
        }
        Ok(())
    }

    /// The figures of each flow and those above it, line by line, unless one is refused.
    pub fn lines(&self, mut take: impl FnMut(usize, &[u8]) -> Result<(), u32>) -> Result<(), u32> {
        let mut line = [0; MAX_FLOWS];
        let mut nodes = 0;
        for (l, plan) in self.plans().enumerate() {
            self.weigh(plan, self.plans(), nodes, &mut line[..l], put);
            take(l, &line[..l])?;
            nodes |= nodes_of(plan);
        }
        Ok(())
    }

    /// The figures of a plan and the first of the plans above it, as many as there is room for.
    pub fn line<'p>(&self, plan: &[u8], above: impl Iterator<Item = &'p [u8]> + Clone, line: &mut [u8]) {
        let nodes = above.clone().take(line.len()).fold(0, |nodes, higher| nodes | nodes_of(higher));
        self.weigh(plan, above, nodes, line, put);
    }

    /// What each plan above costs this one; `nodes` are theirs. As many of them as a word has room for go side by side.
    fn weigh<'p, T>(
        &self,
        plan: &[u8],
        mut plans: impl Iterator<Item = &'p [u8]>,
        nodes: u64,
        above: &mut [T],
        charge: impl Fn(&mut T, u32),
    ) {
        if above.is_empty() {
            return;
        }
        let mut columns = Columns::blank();
        columns.gather(self, plan, nodes);
        let len = columns.len;
        for rivals in above.chunks_mut((u64::BITS / (len + 1)) as usize) {
            let (mut words, mut steps) = ([0; MAX_LEN], 0);
            let (mut ends, mut end) = (0, len);
            for higher in plans.by_ref().take(rivals.len()) {
                for (word, step) in words.iter_mut().zip(higher.chunks_exact(STEP_BYTES)) {
                    *word |= u64::from(columns.marks(step)) << (end - len);
                }
                steps = steps.max(higher.len() / STEP_BYTES);
                ends |= 1 << end;
                end += len + 1;
            }
            let digits = worked_out(&words[..steps], ends);
            for (rival, end) in rivals.iter_mut().zip((len..).step_by(len as usize + 1)) {
                charge(rival, taken(&digits, end));
            }
        }
    }
}

/// A figure is at most the length of the plan above.
fn put(figure: &mut u8, taken: u32) {
    *figure = taken as u8;
}
