//! Random valid books of a given shape, most of them accepted and with deadlines close to their bounds.

use crate::dice::Dice;
use crate::draft::{neighbours, Draft, DraftFlow};
use crate::limits::*;

/// The sizes that a random book may have.
#[derive(Clone, Copy)]
pub struct Shape {
    pub nodes: (usize, usize),
    pub flows: (usize, usize),
    pub steps: (usize, usize),
    /// The largest phase.
    pub phase: usize,
    /// The largest period.
    pub period: usize,
    /// How many times its bound the period of an accepted flow is at most.
    pub slack: usize,
}

const ANY_PHASE: usize = MAX_PHASE as usize;
const ANY_PERIOD: usize = MAX_PERIOD as usize;

pub const SMALL: Shape = Shape { nodes: (1, 8), flows: (0, 5), steps: (1, 5), phase: 12, period: 60, slack: 3 };
pub const MIDDLE: Shape = Shape { nodes: (4, 24), flows: (1, 12), steps: (1, 10), phase: 90, period: 900, slack: 6 };
pub const CROWDED: Shape =
    Shape { nodes: (40, 64), flows: (20, 32), steps: (1, 6), phase: 200, period: 2_000, slack: 9 };
pub const WIDE: Shape = Shape {
    nodes: (2, MAX_NODES),
    flows: (0, MAX_FLOWS),
    steps: (1, MAX_LEN),
    phase: ANY_PHASE,
    period: ANY_PERIOD,
    slack: 12,
};
pub const FULL: Shape = Shape {
    nodes: (MAX_NODES, MAX_NODES),
    flows: (MAX_FLOWS, MAX_FLOWS),
    steps: (MAX_LEN, MAX_LEN),
    phase: 500,
    period: ANY_PERIOD,
    slack: 40,
};

/// Who disturbs whom: nobody, everybody, neighbours, one way along the line, or at random with one of several
/// densities (one-way rows are ordinary).
fn rows(dice: &mut Dice, nodes: usize) -> Vec<u64> {
    let kind = dice.below(8);
    let all = u64::MAX >> (MAX_NODES - nodes);
    let others = |x: usize| all & !(1 << x);
    match kind {
        0 => vec![0; nodes],
        1 => (0..nodes).map(others).collect(),
        2 => neighbours(nodes),
        3 => (0..nodes).map(|x| (1u64 << x) << 1 & all).collect(),
        _ => {
            let thinned = |dice: &mut Dice| (4..kind).fold(dice.roll(), |mask, _| mask & dice.roll());
            (0..nodes).map(|x| thinned(dice) & others(x)).collect()
        }
    }
}

/// A walk from node to node, some of its steps repeated; mostly to near nodes, so that many can go at once.
fn plan(dice: &mut Dice, nodes: usize, len: usize) -> Vec<(u8, u8)> {
    if nodes == 1 {
        return vec![(0, 0); len];
    }
    let mut at = dice.below(nodes);
    let mut plan = Vec::new();
    while plan.len() < len {
        let near = dice.below(4) != 0;
        let hop = if near { dice.pick(&[1, nodes - 1]) } else { dice.between(1, nodes - 1) };
        let next = (at + hop) % nodes;
        let times = if dice.once_in(3) { dice.between(2, 4) } else { 1 };
        plan.extend(vec![(at as u8, next as u8); times]);
        at = next;
    }
    plan.truncate(len);
    plan
}

/// An id that no earlier flow has; now and then one of the two ends of the range.
fn fresh_id(dice: &mut Dice, flows: &[DraftFlow]) -> u16 {
    loop {
        let wide = dice.between(1, usize::from(u16::MAX)) as u16;
        let small = dice.between(1, 2 * MAX_FLOWS) as u16;
        let id = dice.pick(&[wide, wide, small, small, u16::MAX]);
        if flows.iter().all(|flow| flow.id != id) {
            return id;
        }
    }
}

fn bare(dice: &mut Dice, shape: &Shape, nodes: usize, flows: &[DraftFlow]) -> DraftFlow {
    let len = dice.between(shape.steps.0, shape.steps.1);
    DraftFlow {
        id: fresh_id(dice, flows),
        phase: dice.between(0, shape.phase) as u16,
        period: shape.period as u16,
        deadline: shape.period as u16,
        plan: plan(dice, nodes, len),
    }
}

/// A flow that fits the nodes and the ids of a draft, with the longest period. On one node its steps go nowhere.
pub fn newcomer(dice: &mut Dice, draft: &Draft) -> DraftFlow {
    let longest = dice.pick(&[1, 3, MAX_LEN]);
    let shape = Shape { steps: (1, longest), ..WIDE };
    bare(dice, &shape, draft.nodes(), &draft.flows)
}

/// A draft with its rows, and how many flows it is to get. One node can send to nobody.
fn empty(dice: &mut Dice, shape: &Shape) -> (Draft, usize) {
    let nodes = dice.between(shape.nodes.0, shape.nodes.1);
    let wanted = if nodes == 1 { 0 } else { dice.between(shape.flows.0, shape.flows.1) };
    (Draft { rows: rows(dice, nodes), flows: Vec::new() }, wanted)
}

/// A valid book that is accepted: each flow's bound is worked out first, then its period and deadline are put at
/// or above it. A flow that has no bound even at the longest period is left out.
pub fn accepted(dice: &mut Dice, shape: &Shape) -> Draft {
    accepted_with(dice, shape, |bound, _| bound)
}

/// The same by the deadline count and its bounds.
pub fn accepted_by_deadline(dice: &mut Dice, shape: &Shape) -> Draft {
    accepted_with(dice, shape, |_, deadline| deadline)
}

/// `carry` is how long an instance of a flow with this bound and this deadline may be carried in.
fn accepted_with(dice: &mut Dice, shape: &Shape, carry: fn(u16, u16) -> u16) -> Draft {
    let (mut draft, wanted) = empty(dice, shape);
    let slack = dice.between(1, shape.slack);
    let mut carries = Vec::new();
    for _ in 0..wanted {
        let place = draft.flows.len();
        let flow = bare(dice, shape, draft.nodes(), &draft.flows);
        draft.flows.push(flow);
        let Some(least) = draft.facts().bound_below(&carries) else {
            draft.flows.pop();
            continue;
        };
        let bound = usize::from(least);
        let period = dice.between(bound, (slack * bound + 4).min(shape.period));
        let loose = dice.between(bound, period);
        let deadline = dice.pick(&[bound, bound, bound, loose, period]) as u16;
        draft.flows[place].period = period as u16;
        draft.flows[place].deadline = deadline;
        carries.push(carry(least, deadline));
    }
    draft
}

/// A valid book with periods and deadlines at random, the ends of their ranges included; accepted or not.
pub fn any(dice: &mut Dice, shape: &Shape) -> Draft {
    let (mut draft, wanted) = empty(dice, shape);
    for _ in 0..wanted {
        let mut flow = bare(dice, shape, draft.nodes(), &draft.flows);
        let period = dice.between(1, shape.period);
        let period = dice.pick(&[period, period, period, shape.period, 1 + period % 9]);
        let deadline = dice.between(1, period);
        flow.period = period as u16;
        flow.deadline = dice.pick(&[deadline, period, period, 1]) as u16;
        flow.phase = dice.pick(&[flow.phase, flow.phase, flow.phase, 0, shape.phase as u16]);
        draft.flows.push(flow);
    }
    draft
}

/// A book for a round of many, and its shape. Small books come first, so that a difference shows on a small one if it can.
pub fn of_round(dice: &mut Dice, round: u64) -> (&'static Shape, Draft) {
    let shape = match round % 64 {
        63 => &FULL,
        15 | 47 => &WIDE,
        31 => &CROWDED,
        r if r % 4 == 3 => &MIDDLE,
        _ => &SMALL,
    };
    let draft = match dice.below(6) {
        0 | 1 => any(dice, shape),
        2 if round % 64 == 63 => regular(dice.roll(), MAX_NODES, MAX_FLOWS, MAX_LEN),
        _ => accepted(dice, shape),
    };
    (shape, draft)
}

/// The accepted book with 64 nodes, 32 flows and `len` steps each, or any smaller one of the same make: periods
/// so long that every bound is met, whatever the plans.
pub fn regular(seed: u64, nodes: usize, flows: usize, len: usize) -> Draft {
    let dice = &mut Dice::new(seed);
    let period = len + 2 * len * flows;
    let rows = (0..nodes).map(|x| neighbours(nodes)[x] | (dice.roll() & dice.roll() & dice.roll() & !(1 << x)));
    let mut draft =
        Draft { rows: rows.map(|row| row & (u64::MAX >> (MAX_NODES - nodes))).collect(), flows: Vec::new() };
    for place in 0..flows {
        let period = (period + place) as u16;
        let plan = plan(dice, nodes, len);
        draft.flows.push(DraftFlow { id: 100 + place as u16, phase: place as u16, period, deadline: period, plan });
    }
    draft
}
