//! How many of the flows that want to come in are let in: by the deadline count, by the bounds, and by a simulation of the run.
//!
//! A network is drawn, and flows over it. They come one by one, each to its place by priority, the shorter deadline first; one stays if the
//! test passes all flows that are in then, and else it is turned away. Each test has its own table.

use crate::dice::Dice;
use crate::limits::{MAX_LEN, MAX_NODES};
use crate::plain::book::{Facts, Flow, Record, Transmission};

/// Nodes stand anywhere in a square with this side. Two of them have a link if they are no farther apart than a link reaches, and disturb
/// each other half as far again.
const SIDE: usize = 1_000;
const LINK: usize = 200;
const DISTURBANCE: usize = 300;
const LEAST_NODES: usize = MAX_NODES / 2;
/// How many flows want to come in.
const FLOWS: (usize, usize) = (8, 20);
/// The most tries of a hop: one more than its longest burst of losses.
const TRIES: usize = 3;
/// Periods whose common multiple is short, before they are stretched.
const PERIODS: [usize; 9] = [30, 36, 40, 45, 60, 72, 90, 120, 180];

/// What the flows of a table are like: their periods are so many times the shortest ones, and their deadlines a period or, if they are
/// short, anything from half a period on.
#[derive(Clone, Copy)]
pub struct Load {
    pub stretch: usize,
    pub short_deadlines: bool,
}

/// Of tables: the flows that came, and those let in by each of the three tests; how many tables have more flows by the bounds than by the
/// deadline count, and how many fewer.
#[derive(Default)]
pub struct Counts {
    pub came: usize,
    pub by_deadline: usize,
    pub by_bounds: usize,
    pub by_run: usize,
    pub more: usize,
    pub fewer: usize,
}

impl Counts {
    /// A run has to keep its deadlines from the phases of the flows and, where so many phasings are asked for, from others.
    pub fn of_a_table(dice: &mut Dice, load: Load, phasings: u64) -> Counts {
        let (offer, phases) = (Offer::draw(dice, load), &mut Dice::new(dice.roll()));
        let runs = |facts: &Facts, _: Line| by_run(facts) && (1..phasings).all(|_| by_run(&rephased(phases, facts)));
        let [before, now] = [offer.let_in(by_deadline), offer.let_in(by_bounds)].map(|facts| facts.flows.len());
        Counts {
            came: offer.count(),
            by_deadline: before,
            by_bounds: now,
            by_run: offer.let_in(runs).flows.len(),
            more: usize::from(now > before),
            fewer: usize::from(now < before),
        }
    }

    pub fn add(&mut self, other: &Counts) {
        self.came += other.came;
        self.by_deadline += other.by_deadline;
        self.by_bounds += other.by_bounds;
        self.by_run += other.by_run;
        self.more += other.more;
        self.fewer += other.fewer;
    }
}

/// The flows that want to come in, by priority, and who disturbs whom.
pub struct Offer {
    facts: Facts,
    /// I(l, h) of each flow l for each flow h above it.
    figures: Vec<Vec<u64>>,
    /// The places of the flows, in the order in which they come.
    order: Vec<usize>,
}

/// The figures of a flow for those above it, by its place.
type Line<'a> = &'a dyn Fn(usize) -> Vec<u64>;

impl Offer {
    pub fn draw(dice: &mut Dice, load: Load) -> Offer {
        let nodes: Vec<(usize, usize)> =
            (0..dice.between(LEAST_NODES, MAX_NODES)).map(|_| (dice.below(SIDE), dice.below(SIDE))).collect();
        let (links, disturbs) = (within(&nodes, LINK), within(&nodes, DISTURBANCE));
        let count = dice.between(FLOWS.0, FLOWS.1);
        let mut flows = Vec::new();
        while flows.len() < count {
            let Some(plan) = plan(dice, &links) else { continue };
            let period = load.stretch * dice.pick(&PERIODS);
            let least = if load.short_deadlines { period / 2 } else { period };
            let record = Record {
                id: flows.len() as u16 + 1,
                phase: dice.below(period) as u16,
                period: period as u16,
                deadline: dice.between(least, period) as u16,
                len: plan.len() as u16,
            };
            flows.push(Flow { record, plan });
        }
        flows.sort_by_key(|flow| flow.record.deadline);
        let facts = Facts { disturbs, flows };
        let mut order: Vec<usize> = (0..count).collect();
        order.sort_by_key(|&place| facts.flows[place].record.id);
        Offer { figures: (0..count).map(|l| facts.line(l)).collect(), facts, order }
    }

    pub fn count(&self) -> usize {
        self.order.len()
    }

    /// The flows that come in by a test, by priority.
    pub fn let_in(&self, mut passes: impl FnMut(&Facts, Line) -> bool) -> Facts {
        let mut places = Vec::new();
        for newcomer in &self.order {
            let at = places.partition_point(|place| place < newcomer);
            places.insert(at, *newcomer);
            let line = |l: usize| places[..l].iter().map(|&h| self.figures[places[l]][h]).collect();
            if !passes(&self.part(&places), &line) {
                places.remove(at);
            }
        }
        self.part(&places)
    }

    fn part(&self, places: &[usize]) -> Facts {
        Facts {
            disturbs: self.facts.disturbs.clone(),
            flows: places.iter().map(|&place| self.facts.flows[place].clone()).collect(),
        }
    }
}

pub fn by_deadline(facts: &Facts, line: Line) -> bool {
    facts.bounds_by_deadline(line).is_ok()
}

pub fn by_bounds(facts: &Facts, line: Line) -> bool {
    facts.bounds_by(line).is_ok()
}

/// A run keeps every deadline, however long it goes on.
pub fn by_run(facts: &Facts) -> bool {
    run(facts, long_enough(facts)).is_some()
}

/// The same flows, released from any slot of their period on.
pub fn rephased(dice: &mut Dice, facts: &Facts) -> Facts {
    let mut other = facts.clone();
    for flow in &mut other.flows {
        flow.record.phase = dice.below(usize::from(flow.record.period)) as u16;
    }
    other
}

/// Who is within reach of whom.
fn within(nodes: &[(usize, usize)], reach: usize) -> Vec<Vec<bool>> {
    let near =
        |a: (usize, usize), b: (usize, usize)| a.0.abs_diff(b.0).pow(2) + a.1.abs_diff(b.1).pow(2) <= reach.pow(2);
    nodes.iter().map(|&a| nodes.iter().map(|&b| a != b && near(a, b)).collect()).collect()
}

/// A shortest way between two nodes, each hop with some tries; nothing if there is no way or it takes too many steps.
fn plan(dice: &mut Dice, links: &[Vec<bool>]) -> Option<Vec<Transmission>> {
    let (from, to) = (dice.below(links.len()), dice.below(links.len()));
    let hops = route(links, from, to)?;
    let plan: Vec<Transmission> = hops.into_iter().flat_map(|hop| vec![hop; dice.between(1, TRIES)]).collect();
    (1..=MAX_LEN).contains(&plan.len()).then_some(plan)
}

/// The nodes are reached in the order of their hops, and each keeps the one it was reached from.
fn route(links: &[Vec<bool>], from: usize, to: usize) -> Option<Vec<Transmission>> {
    let mut reached_from = vec![None; links.len()];
    let mut reached = vec![from];
    let mut k = 0;
    while let Some(&node) = reached.get(k) {
        for next in 0..links.len() {
            if links[node][next] && next != from && reached_from[next].is_none() {
                reached_from[next] = Some(node);
                reached.push(next);
            }
        }
        k += 1;
    }
    let mut hops = Vec::new();
    let mut node = to;
    while node != from {
        let before = reached_from[node]?;
        hops.insert(0, (before, node));
        node = before;
    }
    Some(hops)
}

/// How many slots show all that a run ever does, if it keeps its deadlines. From the first release on at which all flows above repeat
/// themselves, a flow repeats itself too, after a common multiple of their periods and its own: it has nothing unfinished at a
/// release. The longest deadline is for the instances that are released last.
pub fn long_enough(facts: &Facts) -> usize {
    let (mut from, mut cycle, mut longest) = (0, 1, 0);
    for Flow { record, .. } in &facts.flows {
        let (phase, period) = (usize::from(record.phase), usize::from(record.period));
        from = phase + usize::saturating_sub(from, phase).div_ceil(period) * period;
        cycle = common_multiple(cycle, period);
        longest = longest.max(usize::from(record.deadline));
    }
    from + cycle + longest
}

fn common_multiple(a: usize, b: usize) -> usize {
    (1..).map(|k| k * a).find(|multiple| multiple % b == 0).expect("a times b at the latest")
}

/// The transmissions of so many slots, unless a deadline within them is missed. Flow by flow from the highest priority down: a step goes in
/// the first slot behind the step before it in which it conflicts with nothing that goes there already.
pub fn run(facts: &Facts, end: usize) -> Option<Vec<Vec<Transmission>>> {
    let mut slots: Vec<Vec<Transmission>> = vec![Vec::new(); end];
    for Flow { record, plan } in &facts.flows {
        for release in (usize::from(record.phase)..end).step_by(usize::from(record.period)) {
            let deadline = release + usize::from(record.deadline);
            let mut window = release..deadline.min(end);
            for &step in plan {
                let free = window.find(|&slot| slots[slot].iter().all(|&taken| !facts.conflict(taken, step)));
                match free {
                    Some(slot) => slots[slot].push(step),
                    None if deadline <= end => return None,
                    None => break,
                }
            }
        }
    }
    Some(slots)
}
