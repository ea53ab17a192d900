//! Check, start, advance and why.

use super::book::{open, Facts, Transmission};
use super::{refuse_first, refuse_if, Refusal};
use crate::answer::*;
use crate::limits::*;

/// Codes 1 to 8, then 9; the bounds of the m flows, zeros elsewhere.
pub fn check(book: &[u8]) -> Result<[u16; MAX_FLOWS], Refusal> {
    open(book)?.facts().bounds()
}

/// Slot 0, every flow idle.
pub fn start(book: &[u8], area: &mut [u8]) -> Result<(), Refusal> {
    let facts = open(book)?.facts();
    facts.bounds()?;
    refuse_if(area.len() < AREA_BYTES, SHORT_MEMORY)?;
    let done = facts.flows.iter().map(|flow| flow.plan.len()).collect();
    State { slot: 0, done }.write(area);
    Ok(())
}

/// One slot: releases, then grants in record order. The count of grants.
pub fn advance(book: &[u8], area: &mut [u8], grants: &mut [u8]) -> Result<usize, Refusal> {
    let facts = open(book)?.facts();
    refuse_if(area.len() < AREA_BYTES || grants.len() < GRANT_BYTES * facts.flows.len(), SHORT_MEMORY)?;
    let mut state = State::in_its_slot(&facts, area)?;
    let granted = greedy(&facts, &state);
    for (place, grant) in granted.iter().enumerate() {
        state.done[grant.flow] += 1;
        grants[GRANT_BYTES * place..][..GRANT_BYTES].copy_from_slice(&grant.bytes(&facts, state.slot));
    }
    state.slot += 1;
    state.write(area);
    Ok(granted.len())
}

/// Why the flow at a place is silent in the slot about to run, or that it is not.
pub fn why(book: &[u8], area: &[u8], place: usize) -> Result<usize, Refusal> {
    let facts = open(book)?.facts();
    refuse_if(area.len() < AREA_BYTES, SHORT_MEMORY)?;
    let state = State::in_its_slot(&facts, area)?;
    refuse_if(place >= facts.flows.len(), BAD_PLACE)?;
    let flow = &facts.flows[place];
    if state.slot < u64::from(flow.record.phase) {
        return Ok(told(NOT_RELEASED, 0));
    }
    let Some(&step) = flow.plan.get(state.done[place]) else {
        return Ok(told(FINISHED, 0));
    };
    let granted = greedy(&facts, &state);
    if granted.iter().any(|grant| grant.flow == place) {
        return Ok(told(GRANTED, 0));
    }
    let blocker = granted.iter().find(|grant| facts.conflict(grant.transmission, step));
    Ok(told(WAITING, blocker.expect("a flow waits for a grant that conflicts").flow))
}

struct Grant {
    flow: usize,
    step: usize,
    transmission: Transmission,
}

/// Unfinished flows in record order, each granted if its next step conflicts with no grant already made.
fn greedy(facts: &Facts, state: &State) -> Vec<Grant> {
    let mut granted: Vec<Grant> = Vec::new();
    for (flow, &step) in state.done.iter().enumerate() {
        if step == facts.flows[flow].plan.len() {
            continue;
        }
        let transmission = facts.flows[flow].plan[step];
        if granted.iter().all(|made| !facts.conflict(made.transmission, transmission)) {
            granted.push(Grant { flow, step, transmission });
        }
    }
    granted
}

impl Grant {
    fn bytes(&self, facts: &Facts, slot: u64) -> Vec<u8> {
        let record = facts.flows[self.flow].record;
        let instance = (slot - u64::from(record.phase)) / u64::from(record.period);
        let (sender, receiver) = self.transmission;
        let mut bytes = record.id.to_be_bytes().to_vec();
        bytes.extend((instance as u32).to_be_bytes());
        bytes.extend([self.step as u8, sender as u8, receiver as u8]);
        bytes
    }
}

impl Facts {
    /// Whether some instance of flow i is released in this very slot: phase + v × P for a v from 0.
    fn released_now(&self, i: usize, slot: u64) -> bool {
        let (phase, period) = (u64::from(self.flows[i].record.phase), u64::from(self.flows[i].record.period));
        slot >= phase && (slot - phase) % period == 0
    }
}

/// The slot to run next, at the front of a run area.
pub fn slot_of(area: &[u8]) -> u64 {
    area[..SLOT_BYTES].iter().fold(0, |high, &byte| 256 * high + u64::from(byte))
}

/// The run area: the slot to run next, and the steps done by each flow's latest instance.
struct State {
    slot: u64,
    done: Vec<usize>,
}

impl State {
    /// Code 10: a bad slot ahead of a bad place.
    fn read(facts: &Facts, area: &[u8]) -> Result<State, Refusal> {
        let slot = slot_of(area);
        let done: Vec<usize> = area[SLOT_BYTES..AREA_BYTES].iter().map(|&byte| usize::from(byte)).collect();
        refuse_if(slot > u64::from(END_OF_SLOTS), BAD_AREA)?;
        refuse_first(BAD_AREA, MAX_FLOWS, |i| match facts.flows.get(i) {
            None => done[i] != 0,
            Some(flow) => {
                let (len, not_before) = (flow.plan.len(), u64::from(flow.record.phase) >= slot);
                done[i] > len || (not_before && done[i] != len)
            }
        })?;
        Ok(State { slot, done: done[..facts.flows.len()].to_vec() })
    }

    /// The same, then codes 12 and 11; with the releases of the slot about to run.
    fn in_its_slot(facts: &Facts, area: &[u8]) -> Result<State, Refusal> {
        let mut state = State::read(facts, area)?;
        refuse_if(state.slot == u64::from(END_OF_SLOTS), END_REACHED)?;
        let flows = &facts.flows;
        refuse_first(UNFINISHED, flows.len(), |i| {
            facts.released_now(i, state.slot) && state.done[i] != flows[i].plan.len()
        })?;
        for i in 0..flows.len() {
            if facts.released_now(i, state.slot) {
                state.done[i] = 0;
            }
        }
        Ok(state)
    }

    fn write(&self, area: &mut [u8]) {
        area[..AREA_BYTES].fill(0);
        area[..SLOT_BYTES].copy_from_slice(&(self.slot as u32).to_be_bytes());
        for (i, &done) in self.done.iter().enumerate() {
            area[SLOT_BYTES + i] = done as u8;
        }
    }
}
