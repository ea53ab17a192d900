//! The monitor: runs an accepted book from start and checks, from the grants alone, that every deadline is kept and
//! that nothing is granted but what the rules allow.

use crate::answer::{code_of, number_of, packed, DONE};
use crate::limits::*;
use crate::plain::book::{facts, two_bytes, Facts, Transmission};
use crate::planner::Planner;
use std::collections::{HashMap, HashSet};

/// What a run showed.
#[derive(Default)]
pub struct Tally {
    pub slots: u64,
    pub grants: u64,
    /// Instances whose whole window lay within the run.
    pub instances: u64,
    /// Those of them that had flows above to wait for, and were done in the very last slot of their bound.
    pub at_bound: u64,
}

impl Tally {
    pub fn add(&mut self, other: &Tally) {
        self.slots += other.slots;
        self.grants += other.grants;
        self.instances += other.instances;
        self.at_bound += other.at_bound;
    }
}

/// What the grant buffer holds before each slot, so that bytes that were not to be touched show.
const UNTOUCHED: u8 = 0xEE;

struct Grant {
    flow: usize,
    instance: u64,
    step: usize,
    transmission: Transmission,
}

/// The slots in which each instance was granted its steps, in the order of the grants.
struct Log {
    facts: Facts,
    bounds: [u16; MAX_FLOWS],
    granted: HashMap<(usize, u64), Vec<u64>>,
    seen: HashSet<(usize, u64, usize)>,
}

/// Runs `slots` slots of the book, which must be one that the rules accept.
pub fn watch(planner: &dyn Planner, book: &[u8], slots: u64) -> Result<Tally, String> {
    let facts = facts(book);
    let bounds = facts.bounds().expect("an accepted book");
    let mut log = Log { facts, bounds, granted: HashMap::new(), seen: HashSet::new() };
    let mut area = [0; AREA_BYTES];
    let mut grants = vec![UNTOUCHED; GRANT_BYTES * (log.facts.flows.len() + 1)];
    demand(planner.check(book) == packed(DONE, 0), || "check refused it".to_string())?;
    demand(planner.start(book, &mut area) == packed(DONE, 0), || "start refused it".to_string())?;
    for slot in 0..slots {
        grants.fill(UNTOUCHED);
        let answer = planner.advance(book, &mut area, &mut grants);
        demand(code_of(answer) == DONE, || format!("slot {slot} refused with code {}", code_of(answer)))?;
        log.slot(slot, number_of(answer), &grants).map_err(|what| format!("slot {slot}: {what}"))?;
    }
    let (instances, at_bound) = log.windows(slots)?;
    Ok(Tally { slots, grants: log.seen.len() as u64, instances, at_bound })
}

fn demand(holds: bool, what: impl FnOnce() -> String) -> Result<(), String> {
    if holds {
        Ok(())
    } else {
        Err(what())
    }
}

impl Log {
    fn release(&self, flow: usize, instance: u64) -> u64 {
        let record = self.facts.flows[flow].record;
        u64::from(record.phase) + instance * u64::from(record.period)
    }

    /// The first slot after the window of an instance.
    fn window_end(&self, flow: usize, instance: u64) -> u64 {
        self.release(flow, instance) + u64::from(self.bounds[flow])
    }

    fn read_grant(&self, bytes: &[u8]) -> Result<Grant, String> {
        let id = two_bytes(bytes, 0);
        let flow = self.facts.flows.iter().position(|flow| flow.record.id == id);
        let high = u64::from(two_bytes(bytes, 2));
        Ok(Grant {
            flow: flow.ok_or_else(|| format!("a grant to flow id {id}, which is not in the book"))?,
            instance: high << 16 | u64::from(two_bytes(bytes, 4)),
            step: usize::from(bytes[6]),
            transmission: (usize::from(bytes[7]), usize::from(bytes[8])),
        })
    }

    fn slot(&mut self, slot: u64, count: usize, buffer: &[u8]) -> Result<(), String> {
        let used = GRANT_BYTES * count;
        demand(used < buffer.len(), || format!("{count} grants are more than there are flows"))?;
        demand(buffer[used..].iter().all(|&byte| byte == UNTOUCHED), || "bytes behind the grants changed".to_string())?;
        let grants: Vec<Grant> =
            buffer[..used].chunks(GRANT_BYTES).map(|bytes| self.read_grant(bytes)).collect::<Result<_, _>>()?;
        grants.iter().try_for_each(|grant| self.enter(slot, grant))?;
        self.undisturbed(&grants)
    }

    /// The slot on the air: all senders at once, then all receivers with their acknowledgements. No node has two parts in
    /// it, and none is disturbed while it listens to another.
    fn undisturbed(&self, grants: &[Grant]) -> Result<(), String> {
        let (senders, receivers): (Vec<usize>, Vec<usize>) = grants.iter().map(|grant| grant.transmission).unzip();
        let nodes: HashSet<&usize> = senders.iter().chain(&receivers).collect();
        demand(nodes.len() == 2 * grants.len(), || "a node has two parts".to_string())?;
        for (talking, listening) in [(&senders, &receivers), (&receivers, &senders)] {
            for (k, &listener) in listening.iter().enumerate() {
                for (j, &talker) in talking.iter().enumerate() {
                    let disturbed = j != k && self.facts.disturbs[talker][listener];
                    demand(!disturbed, || format!("{talker} disturbs {listener}, which listens to another"))?;
                }
            }
        }
        Ok(())
    }

    /// One grant: the next step of an instance that is released, in a slot of its own, within the bound.
    fn enter(&mut self, slot: u64, grant: &Grant) -> Result<(), String> {
        let &Grant { flow, instance, step, transmission } = grant;
        let name = || format!("flow {flow} instance {instance} step {step}");
        let (release, end) = (self.release(flow, instance), self.window_end(flow, instance));
        demand(release <= slot, || format!("{} goes before its release", name()))?;
        demand(slot < end, || format!("{} goes after its bound", name()))?;
        let planned = self.facts.flows[flow].plan.get(step);
        demand(planned == Some(&transmission), || format!("{} is not what the plan says", name()))?;
        demand(self.seen.insert((flow, instance, step)), || format!("{} goes twice", name()))?;
        let before = self.granted.entry((flow, instance)).or_default();
        demand(before.len() == step, || format!("{} goes out of order", name()))?;
        demand(before.last().map_or(true, |&last| last < slot), || format!("{} shares its slot", name()))?;
        before.push(slot);
        Ok(())
    }

    /// Every instance whose window is over has gone, each step once. How many there are, and how many of them used
    /// a window longer than their plan up to its last slot.
    fn windows(&self, slots: u64) -> Result<(u64, u64), String> {
        let (mut instances, mut at_bound) = (0, 0);
        for flow in 0..self.facts.flows.len() {
            for instance in (0..).take_while(|&v| self.window_end(flow, v) <= slots) {
                let len = self.facts.flows[flow].plan.len();
                let went = self.granted.get(&(flow, instance)).map_or(&[][..], |slots| slots);
                demand(went.len() == len, || {
                    format!("flow {flow} instance {instance} went {} of its {len} steps", went.len())
                })?;
                instances += 1;
                let used_up = went.last() == Some(&(self.window_end(flow, instance) - 1));
                at_bound += u64::from(used_up && usize::from(self.bounds[flow]) > len);
            }
        }
        Ok((instances, at_bound))
    }
}
