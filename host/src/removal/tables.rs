//! Accepted tables to take flows out of, with something in every unused place.

use crate::dice::Dice;
use crate::generate::{accepted, regular, Shape, MIDDLE};
use crate::limits::*;
use crate::memory::Table;
use crate::tables::littered;

/// Few flows, whose first slots are busy.
const FEW: Shape = Shape { nodes: (2, 10), flows: (1, 7), steps: (1, 4), phase: 8, period: 200, slack: 3 };
const SOME: Shape = Shape { phase: 20, ..MIDDLE };

/// The table of a round of many. Of three tables in four every deadline is cut to its bound, so that no bound may rise; of the fourth it is
/// at the period, so that one might.
pub fn of_round(dice: &mut Dice, round: u64) -> Table {
    let mut draft = match round % 1_000 {
        500 => regular(dice.roll(), MAX_NODES, MAX_FLOWS, 2),
        r if r % 20 == 10 => accepted(dice, &SOME),
        _ => accepted(dice, &FEW),
    };
    let (bounds, loose) = (draft.facts().bounds().expect("an accepted book"), dice.once_in(4));
    for (flow, bound) in draft.flows.iter_mut().zip(bounds) {
        flow.deadline = if loose { flow.period } else { bound };
    }
    littered(dice, &draft)
}
