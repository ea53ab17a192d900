//! Tables and newcomers for the five calls on a table: valid ones with something in every unused place, damaged ones, and ones with
//! other figures.

use crate::dice::Dice;
use crate::draft::Draft;
use crate::limits::*;
use crate::memory::{figure_at, PlanBytes, Table, PLAN_BYTES};
use crate::plain::table::read;

fn litter(dice: &mut Dice, unused: &mut [u8]) {
    unused.iter_mut().for_each(|byte| *byte = dice.byte());
}

/// The table of a valid book, with something in every unused place.
pub fn littered(dice: &mut Dice, draft: &Draft) -> Table {
    let (_, mut table) = read(&draft.bytes());
    litter(dice, &mut table.rows[ROW_BYTES * draft.nodes()..]);
    litter(dice, &mut table.records[RECORD_BYTES * draft.flows.len()..]);
    litter(dice, &mut table.steps[STEP_BYTES * draft.steps()..]);
    litter_figures(dice, &mut table);
    table
}

/// Something in every place among the figures but those of a flow and one above it.
fn litter_figures(dice: &mut Dice, table: &mut Table) {
    for l in 0..MAX_FLOWS {
        let above = if l < usize::from(table.m) { l } else { 0 };
        litter(dice, &mut table.figures[figure_at(l, above)..figure_at(l + 1, 0)]);
    }
}

/// A table with one figure one more or one less.
pub fn off_by_one(dice: &mut Dice, table: &Table, l: usize, h: usize) -> Table {
    let mut off = table.clone();
    let figure = &mut off.figures[figure_at(l, h)];
    *figure = figure.wrapping_add(dice.pick(&[1, u8::MAX]));
    off
}

/// A table with every figure at random, each at most `most`.
pub fn refigured(dice: &mut Dice, table: &Table, most: u8) -> Table {
    let mut other = table.clone();
    other.figures.iter_mut().for_each(|figure| *figure = dice.between(0, usize::from(most)) as u8);
    other
}

/// The table that a damaged copy of a book says, its parts where the undamaged ones lay; nothing if it has another length.
pub fn of_damaged(dice: &mut Dice, draft: &Draft, book: &[u8]) -> Option<Table> {
    let (records, steps, trailer) = (draft.records_at(), draft.steps_at(), draft.trailer_at());
    if book.len() != trailer + TRAILER_BYTES {
        return None;
    }
    let mut table = littered(dice, draft);
    table.rows[..records].copy_from_slice(&book[..records]);
    table.records[..steps - records].copy_from_slice(&book[records..steps]);
    table.steps[..trailer - steps].copy_from_slice(&book[steps..trailer]);
    (table.n, table.m) = (book[trailer + 6], book[trailer + 7]);
    Some(table)
}

/// One to three random changes of a valid table, its counts, the ends of their ranges and its unused places among them. If it is valid
/// still, its figures are put right half of the time.
pub fn at_random(dice: &mut Dice, draft: &Draft) -> Table {
    let mut table = littered(dice, draft);
    for _ in 0..dice.pick(&[1, 1, 1, 2, 3]) {
        let near = |dice: &mut Dice, count: u8| dice.pick(&[count.wrapping_sub(1), count + 1, 0, u8::MAX]);
        let (used_rows, used_records, used_steps) =
            (ROW_BYTES * draft.nodes(), RECORD_BYTES * draft.flows.len(), STEP_BYTES * draft.steps());
        let used_figures = figure_at(draft.flows.len(), 0);
        match dice.below(11) {
            0 => table.n = near(dice, draft.nodes() as u8),
            1 => table.n = near(dice, MAX_NODES as u8),
            2 => table.m = near(dice, draft.flows.len() as u8),
            3 => table.m = near(dice, MAX_FLOWS as u8),
            4 => spoil(dice, &mut table.rows, used_rows),
            5 | 6 => spoil(dice, &mut table.records, used_records),
            7 | 8 => spoil(dice, &mut table.steps, used_steps),
            9 => spoil(dice, &mut table.figures, used_figures),
            _ => table = noise(dice, table),
        }
    }
    if dice.once_in(2) && table.passes() {
        table.put_right();
        litter_figures(dice, &mut table);
    }
    table
}

/// Another byte in a section, mostly in its used part.
fn spoil(dice: &mut Dice, section: &mut [u8], used: usize) {
    let at = if used == 0 || dice.once_in(6) { dice.below(section.len()) } else { dice.below(used) };
    section[at] = match dice.below(4) {
        0 => section[at] ^ 1 << dice.below(8),
        1 => section[at].wrapping_add(dice.pick(&[1, u8::MAX])),
        2 => dice.pick(&[0, MAX_LEN as u8, MAX_LEN as u8 + 1, MAX_NODES as u8, u8::MAX]),
        _ => dice.byte(),
    };
}

/// A section of bytes that were never one.
fn noise(dice: &mut Dice, mut table: Table) -> Table {
    match dice.below(4) {
        0 => litter(dice, &mut table.rows),
        1 => litter(dice, &mut table.records),
        2 => litter(dice, &mut table.figures),
        _ => litter(dice, &mut table.steps),
    }
    table
}

/// The step places of a plan, with something in those past its end.
pub fn places(steps: &[(u8, u8)]) -> PlanBytes {
    let mut plan = [0xEE; PLAN_BYTES];
    for (place, &(sender, receiver)) in plan.chunks_mut(STEP_BYTES).zip(steps) {
        place.copy_from_slice(&[sender, receiver]);
    }
    plan
}
