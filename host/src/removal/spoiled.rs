//! Claims and calls that are wrong in one way each. Whoever judges removals has to see every one, by the point that it breaks.

use super::claim::{Claim, Point, NEVER_HURTS};
use super::look::table_in;
use super::{Advance, Calls, Replies, PLAIN};
use crate::answer::{code_of, number_of, DONE, NO_BOUND};
use crate::draft::{Draft, DraftFlow};
use crate::limits::*;
use crate::memory::{figure_at, Table};
use crate::plain::book::{facts, Facts, Flow};
use crate::planner::Planner;
use crate::request::{Reply, Request};

pub struct Spoiled {
    pub what: &'static str,
    pub claim: Claim,
    pub calls: Calls,
    pub seen_by: Point,
}

pub const SPOILED: [Spoiled; 11] = [
    claim("bounds compared place by place", Claim { stood: |_, l| l, ..NEVER_HURTS }, Point::Bounds),
    claim("the place itself among those above", Claim { keeps: |place, i| i <= place, ..NEVER_HURTS }, Point::Grants),
    claim("the flows below among those above", Claim { keeps: |place, i| i != place, ..NEVER_HURTS }, Point::Grants),
    replies("a remove that takes the next flow out", next_taken_out, Point::Left),
    replies("a remove that refuses the last place", last_refused, Point::Left),
    replies("a remove that leaves the plan among the steps", steps_left, Point::Left),
    replies("a remove that keeps the old figures", figures_left, Point::Bounds),
    replies("a remove that moves figures up, and not along their lines", figures_moved_up, Point::Bounds),
    replies("a bound by the carry-in of the flow just above for all", just_above, Point::Bounds),
    advances("grants written from the lowest priority up", written_backwards, Point::Grants),
    advances("a slot filled from the lowest priority up", filled_backwards, Point::Grants),
];

const fn claim(what: &'static str, claim: Claim, seen_by: Point) -> Spoiled {
    Spoiled { what, claim, calls: PLAIN, seen_by }
}

const fn replies(what: &'static str, reply: fn(&Request) -> Reply, seen_by: Point) -> Spoiled {
    Spoiled { what, claim: NEVER_HURTS, calls: Calls { replies: Replies::Each(reply), ..PLAIN }, seen_by }
}

const fn advances(what: &'static str, advance: Advance, seen_by: Point) -> Spoiled {
    Spoiled { what, claim: NEVER_HURTS, calls: Calls { advance, ..PLAIN }, seen_by }
}

/// The answer of plain, with another remove.
fn with_remove(request: &Request, remove: impl Fn(&Table, u64) -> Reply) -> Reply {
    match request {
        Request::Remove { table, place } => remove(table, *place),
        _ => request.reply_of_plain(),
    }
}

fn removed(table: &Table, place: u64) -> Reply {
    Request::Remove { table: table.clone(), place }.reply_of_plain()
}

/// The same, and what is left is changed then.
fn removed_and(table: &Table, place: u64, change: impl Fn(&mut Table)) -> Reply {
    let mut reply = removed(table, place);
    let mut left = table_in(&reply.memory);
    change(&mut left);
    reply.memory = left.bytes().to_vec();
    reply
}

fn next_taken_out(request: &Request) -> Reply {
    with_remove(request, |table, place| removed(table, (place + 1) % u64::from(table.m)))
}

fn last_refused(request: &Request) -> Reply {
    with_remove(request, |table, place| removed(table, if place + 1 == u64::from(table.m) { place + 1 } else { place }))
}

fn steps_left(request: &Request) -> Reply {
    with_remove(request, |table, place| removed_and(table, place, |left| left.steps = table.steps))
}

fn figures_left(request: &Request) -> Reply {
    with_remove(request, |table, place| removed_and(table, place, |left| left.figures = table.figures))
}

fn figures_moved_up(request: &Request) -> Reply {
    with_remove(request, |table, place| {
        let (from, next) = (figure_at(place as usize, 0), figure_at(place as usize + 1, 0));
        removed_and(table, place, |left| {
            left.figures = table.figures;
            left.figures.copy_within(next.., from);
        })
    })
}

fn just_above(request: &Request) -> Reply {
    let right = request.reply_of_plain();
    let facts = match request {
        Request::CheckTable { table } if table.passes() => table.sections().facts(),
        Request::Check { slice } if [DONE, NO_BOUND].contains(&right.code) => facts(slice),
        _ => return right,
    };
    let mut bounds: Vec<u16> = Vec::new();
    for l in 0..facts.flows.len() {
        let carry = bounds.last().copied().unwrap_or_default();
        match facts.bound_below(&vec![carry; l]) {
            Some(bound) => bounds.push(bound),
            None => return Reply { code: NO_BOUND, number: l as u64, memory: vec![0; right.memory.len()] },
        }
    }
    bounds.resize(MAX_FLOWS, 0);
    Reply { code: DONE, number: 0, memory: bounds.iter().flat_map(|bound| bound.to_be_bytes()).collect() }
}

fn written_backwards(planner: &dyn Planner, book: &[u8], area: &mut [u8], grants: &mut [u8]) -> u32 {
    let answer = planner.advance(book, area, grants);
    let count = if code_of(answer) == DONE { number_of(answer) } else { 0 };
    let written = grants[..GRANT_BYTES * count].to_vec();
    for (place, grant) in grants.chunks_mut(GRANT_BYTES).zip(written.chunks(GRANT_BYTES).rev()) {
        place.copy_from_slice(grant);
    }
    answer
}

/// Runs the slot with the flows in the opposite order, and writes the grants in the right one.
fn filled_backwards(planner: &dyn Planner, book: &[u8], area: &mut [u8], grants: &mut [u8]) -> u32 {
    let turned = turned(&facts(book));
    let places = SLOT_BYTES..SLOT_BYTES + turned.flows.len();
    area[places.clone()].reverse();
    let answer = written_backwards(planner, &turned.bytes(), area, grants);
    area[places].reverse();
    answer
}

/// A book with its flows in the opposite order.
fn turned(facts: &Facts) -> Draft {
    let mask = |row: &Vec<bool>| row.iter().rev().fold(0, |mask, &set| mask << 1 | u64::from(set));
    let flow = |Flow { record, plan }: &Flow| DraftFlow {
        id: record.id,
        phase: record.phase,
        period: record.period,
        deadline: record.deadline,
        plan: plan.iter().map(|&(sender, receiver)| (sender as u8, receiver as u8)).collect(),
    };
    Draft { rows: facts.disturbs.iter().map(mask).collect(), flows: facts.flows.iter().rev().map(flow).collect() }
}
