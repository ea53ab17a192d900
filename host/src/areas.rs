//! Run areas and grant buffers for one advance, and places to ask about: ordinary ones, and ones at or past every edge.

use crate::dice::Dice;
use crate::draft::Draft;
use crate::limits::*;

/// A slot: at or around a release, at random, or at and around the last one.
fn slot(dice: &mut Dice, draft: &Draft) -> u32 {
    let far = dice.below(END_OF_SLOTS as usize) as u32;
    let near = dice.below(500) as u32;
    let edge = END_OF_SLOTS - 2 + dice.below(4) as u32;
    let late = END_OF_SLOTS - 1 - dice.below(100) as u32;
    if draft.flows.is_empty() {
        return dice.pick(&[0, near, far, edge, late, u32::MAX]);
    }
    let flow = &draft.flows[dice.below(draft.flows.len())];
    let (phase, period) = (u32::from(flow.phase), u32::from(flow.period));
    let release = phase + period * dice.below(4) as u32;
    let last = END_OF_SLOTS - 1 - (END_OF_SLOTS - 1 - phase) % period;
    let around = release + dice.below(3) as u32;
    dice.pick(&[0, near, near, far, edge, late, phase, release, release, around.saturating_sub(1), last, u32::MAX])
}

/// A run area for `draft`, well-formed more often than not, of `AREA_BYTES` or somewhat more or less.
pub fn area(dice: &mut Dice, draft: &Draft) -> Vec<u8> {
    let slot = slot(dice, draft);
    let mut area = slot.to_be_bytes().to_vec();
    let idle = dice.once_in(3);
    for flow in &draft.flows {
        let len = flow.plan.len() as u8;
        let due = slot >= u32::from(flow.phase) && (slot - u32::from(flow.phase)) % u32::from(flow.period) == 0;
        let settled = idle || u32::from(flow.phase) >= slot || (due && !dice.once_in(40));
        area.push(if settled { len } else { dice.between(0, usize::from(len)) as u8 });
    }
    area.resize(AREA_BYTES, 0);
    if dice.once_in(6) {
        let place = SLOT_BYTES + dice.below(MAX_FLOWS);
        area[place] = match dice.below(4) {
            0 => area[place].wrapping_add(1),
            1 => area[place].wrapping_sub(1),
            2 => 0,
            _ => dice.byte(),
        };
    }
    let spare = dice.between(1, 30);
    match dice.below(12) {
        0 => area.truncate(dice.below(AREA_BYTES)),
        1 | 2 => area.extend(dice.bytes(spare)),
        _ => {}
    }
    area
}

/// Memory for start to write: anything, from 0 to 40 bytes and now and then far more.
pub fn memory(dice: &mut Dice) -> Vec<u8> {
    let around = dice.between(0, AREA_BYTES + 4);
    let count = dice.pick(&[AREA_BYTES, AREA_BYTES, AREA_BYTES - 1, around, around, 10 * AREA_BYTES]);
    dice.bytes(count)
}

/// A grant buffer for m flows: as long as asked for, longer, or too short, never clean.
pub fn grants(dice: &mut Dice, flows: usize) -> Vec<u8> {
    let need = GRANT_BYTES * flows;
    let count = match dice.below(12) {
        0 => need.saturating_sub(1),
        1 => dice.below(need + 1),
        2..=4 => need + dice.below(40),
        _ => need,
    };
    dice.bytes(count)
}

/// A place to ask about: that of a flow as a rule, at and past the last, or one that looks like a flow's in its lower bytes alone.
pub fn place(dice: &mut Dice, flows: usize) -> usize {
    let among = dice.below(flows);
    let high = 1usize << dice.pick(&[8, 16, 31, 32, 63]);
    let edge = dice.pick(&[flows, flows + 1, MAX_FLOWS, high, high + among, usize::MAX]);
    if dice.once_in(6) {
        edge
    } else {
        among
    }
}
