//! Books made to meet one code on purpose, each with the answer it must get from codes 1 to 9, and the boundary
//! values that must pass.

use crate::answer::*;
use crate::dice::Dice;
use crate::draft::Draft;
use crate::limits::*;

/// A slice and the answer of check to it.
pub struct Aimed {
    pub book: Vec<u8>,
    pub answer: u32,
}

/// The fields of a record, by their place in it.
const ID: usize = 0;
const PHASE: usize = 1;
const PERIOD: usize = 2;
const DEADLINE: usize = 3;
const LEN: usize = 4;

/// Collects damaged copies of one accepted book.
struct Target<'a> {
    draft: &'a Draft,
    book: Vec<u8>,
    aimed: Vec<Aimed>,
}

impl Target<'_> {
    fn hit(&mut self, code: u32, number: usize, damage: impl FnOnce(&mut Vec<u8>)) {
        let mut book = self.book.clone();
        damage(&mut book);
        self.aimed.push(Aimed { book, answer: packed(code, number) });
    }

    fn set(&mut self, code: u32, number: usize, at: usize, value: u8) {
        self.hit(code, number, |book| book[at] = value);
    }

    fn set_field(&mut self, code: u32, record: usize, field: usize, value: u16) {
        let at = self.draft.records_at() + RECORD_BYTES * record + 2 * field;
        self.hit(code, record, |book| put(book, at, value));
    }

    fn set_step(&mut self, number: usize, step: (u8, u8)) {
        let at = self.draft.steps_at() + STEP_BYTES * number;
        self.hit(BAD_STEP, number, |book| book[at..at + STEP_BYTES].copy_from_slice(&[step.0, step.1]));
    }
}

fn put(book: &mut [u8], at: usize, value: u16) {
    book[at..at + 2].copy_from_slice(&value.to_be_bytes());
}

fn get(book: &[u8], at: usize) -> u16 {
    u16::from_be_bytes([book[at], book[at + 1]])
}

/// Adds the same number to all three distances, so that only their sum is wrong.
fn shift_distances(book: &mut [u8], by: i32) {
    let trailer = book.len() - TRAILER_BYTES;
    for k in 0..3 {
        let at = trailer + 2 * k;
        let shifted = i32::from(get(book, at)) + by;
        put(book, at, shifted as u16);
    }
}

/// Every kind of damage that the accepted `draft` has room for.
pub fn around(dice: &mut Dice, draft: &Draft) -> Vec<Aimed> {
    let mut target = Target { draft, book: draft.bytes(), aimed: Vec::new() };
    target.hit(DONE, 0, |_| {});
    let front = dice.between(1, 20);
    let lead = dice.bytes(front);
    target.hit(DONE, 0, |book| drop(book.splice(..0, lead)));
    trailers(&mut target, dice);
    rows(&mut target, dice);
    records(&mut target, dice);
    lengths(&mut target, dice);
    steps(&mut target, dice);
    bounds(&mut target);
    target.aimed
}

/// Codes 1 to 4.
fn trailers(target: &mut Target, dice: &mut Dice) {
    let (end, trailer) = (target.book.len(), target.draft.trailer_at());
    let short = dice.below(TRAILER_BYTES);
    target.hit(SHORT_SLICE, 0, |book| drop(book.drain(..end - short)));
    target.hit(SHORT_SLICE, 0, Vec::clear);
    target.set(NO_MARK, 0, end - 1, MARK[0]);
    target.set(NO_MARK, 0, end - 2, MARK[1]);
    target.hit(NO_MARK, 0, |book| book.push(0));
    for nodes in [0, MAX_NODES as u8 + 1, u8::MAX] {
        target.set(BAD_COUNT, 0, trailer + 6, nodes);
    }
    for flows in [MAX_FLOWS as u8 + 1, u8::MAX] {
        target.set(BAD_COUNT, 0, trailer + 7, flows);
    }
    for at in [trailer, trailer + 2, trailer + 4] {
        for by in [1, 2, u16::MAX, u16::MAX - 1] {
            let wrong = get(&target.book, at).wrapping_add(by);
            target.hit(BAD_DISTANCE, 0, |book| put(book, at, wrong));
        }
    }
    target.hit(BAD_DISTANCE, 0, |book| drop(book.drain(..1)));
    target.hit(BAD_DISTANCE, 0, |book| shift_distances(book, 1));
    let steps = target.draft.steps() * STEP_BYTES;
    target.hit(BAD_DISTANCE, 0, |book| shift_distances(book, -(steps as i32) - 2));
    target.hit(BAD_DISTANCE, 0, |book| shift_distances(book, 2));
    let other = if target.draft.nodes() == 1 { 2 } else { target.draft.nodes() as u8 - 1 };
    target.set(BAD_DISTANCE, 0, trailer + 6, other);
}

/// Code 5: its own bit, bit n, the last bit.
fn rows(target: &mut Target, dice: &mut Dice) {
    let nodes = target.draft.nodes();
    for x in [0, nodes - 1, dice.below(nodes)] {
        for y in [x, nodes, MAX_NODES - 1, dice.between(nodes, MAX_NODES)] {
            if y < MAX_NODES && (y == x || y >= nodes) {
                let at = ROW_BYTES * x + y / 8;
                target.hit(BAD_ROW, x, |book| book[at] |= 1 << (y % 8));
            }
        }
    }
}

/// Code 6: each field at and beyond the ends of its range, ids that repeat, next to each other and far apart.
fn records(target: &mut Target, dice: &mut Dice) {
    let flows = &target.draft.flows;
    if flows.is_empty() {
        return;
    }
    let (max_phase, max_period, max_len) = (MAX_PHASE as u16, MAX_PERIOD as u16, MAX_LEN as u16);
    for i in [0, flows.len() - 1, dice.below(flows.len())] {
        target.set_field(BAD_RECORD, i, ID, 0);
        for past in [max_phase + 1, u16::MAX] {
            target.set_field(BAD_RECORD, i, PHASE, past);
        }
        for outside in [0, max_period + 1, u16::MAX] {
            target.set_field(BAD_RECORD, i, PERIOD, outside);
        }
        for outside in [0, flows[i].period + 1, u16::MAX] {
            target.set_field(BAD_RECORD, i, DEADLINE, outside);
        }
        for outside in [0, max_len + 1, 256 + flows[i].plan.len() as u16, u16::MAX] {
            target.set_field(BAD_RECORD, i, LEN, outside);
        }
        if i > 0 {
            for earlier in [0, i - 1, dice.below(i)] {
                target.set_field(BAD_RECORD, i, ID, flows[earlier].id);
            }
        }
    }
    let at = target.draft.records_at() + 2 * PHASE;
    target.hit(DONE, 0, |book| put(book, at, max_phase));
    let at = target.draft.steps_at() - RECORD_BYTES + 2 * PERIOD;
    target.hit(DONE, 0, |book| put(book, at, max_period));
}

/// Code 7: one L too long or too short, two bytes too many among the steps.
fn lengths(target: &mut Target, dice: &mut Dice) {
    let (at, flows) = (target.draft.steps_at(), &target.draft.flows);
    target.hit(BAD_LENGTHS, 0, |book| {
        book.splice(at..at, [0, 0]);
        shift_distances(book, 2);
    });
    if flows.is_empty() {
        return;
    }
    let i = dice.below(flows.len());
    let at = target.draft.records_at() + RECORD_BYTES * i + 2 * LEN;
    let len = flows[i].plan.len();
    let other = if len == 1 { 2 } else { len - 1 };
    target.hit(BAD_LENGTHS, 0, |book| put(book, at, other as u16));
}

/// Code 8: a node at or above n, a step to itself, a step that jumps.
fn steps(target: &mut Target, dice: &mut Dice) {
    let (nodes, flows) = (target.draft.nodes() as u8, &target.draft.flows);
    let mut before = 0;
    for flow in flows {
        let k = dice.below(flow.plan.len());
        let (sender, receiver) = flow.plan[k];
        let beyond = dice.between(usize::from(nodes), usize::from(u8::MAX)) as u8;
        for bad in [(nodes, receiver), (sender, nodes), (beyond, receiver), (sender, u8::MAX), (sender, sender)] {
            target.set_step(before + k, bad);
        }
        if k > 0 {
            let last = flow.plan[k - 1];
            let jump = (dice.below(usize::from(nodes)) as u8, dice.below(usize::from(nodes)) as u8);
            for bad in [jump, (last.0, jump.1), (jump.0, last.1)] {
                if bad.0 != bad.1 && bad != last && bad.0 != last.1 {
                    target.set_step(before + k, bad);
                }
            }
        }
        before += flow.plan.len();
    }
}

/// Code 9: one deadline cut to one below its bound, and the same deadline cut to the bound itself.
fn bounds(target: &mut Target) {
    let bounds = target.draft.facts().bounds().expect("an accepted book");
    for (place, &bound) in bounds.iter().enumerate().take(target.draft.flows.len()) {
        let mut cut = target.draft.clone();
        cut.flows[place].deadline = bound;
        cut.flows.truncate(place + 1);
        target.aimed.push(Aimed { book: cut.bytes(), answer: packed(DONE, 0) });
        if bound > 1 {
            cut.flows[place].deadline = bound - 1;
            target.aimed.push(Aimed { book: cut.bytes(), answer: packed(NO_BOUND, place) });
        }
    }
}
