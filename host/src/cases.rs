//! The cases of the rules that any planner can be asked through the three calls.

use crate::answer::*;
use crate::dice::Dice;
use crate::draft::{book_a, book_b, Draft, DraftFlow};
use crate::generate::{accepted_by_deadline, regular, MIDDLE, SMALL};
use crate::limits::*;
use crate::planner::Planner;

pub type Case = (&'static str, fn(&dyn Planner) -> Result<(), String>);

pub const CASES: &[Case] = &[
    ("1, trailer of A", trailer_of_a),
    ("3, bounds of A", bounds_of_a),
    ("4, deadline of flow 9", deadline_of_9),
    ("period of flow 7", period_of_7),
    ("each flow above by its own bound", own_carry),
    ("what the deadline count accepts", by_deadline),
    ("5, slots 2 and 3 of A", slots_of_a),
    ("6, bounds of B", bounds_of_b),
    ("7, deadline of flow 3", deadline_of_3),
    ("8, run of B", run_of_b),
    ("10, conflict of 0-1 and 2-3", conflict),
    ("11, one node and no flows", one_node),
    ("12, largest counts and period", largest),
    ("13, last slot", last_slot),
    ("listing of A", listing_of_a),
    ("why the flows of B wait", reasons_of_b),
    ("refusals of why, in their order", refusals_of_why),
];

/// Slot, flow id, instance, step, sender, receiver.
type Line = (u32, u16, u32, u8, u8, u8);

pub fn same<T: PartialEq + std::fmt::Debug>(what: &str, found: T, wanted: T) -> Result<(), String> {
    if found == wanted {
        Ok(())
    } else {
        Err(format!("{what}: {found:?}, where {wanted:?} is right"))
    }
}

fn accepted() -> u32 {
    packed(DONE, 0)
}

/// Starts the book and runs it; the grants, in order.
fn run(planner: &dyn Planner, draft: &Draft, slots: u32) -> Result<Vec<Line>, String> {
    let book = draft.bytes();
    let mut area = [0; AREA_BYTES];
    let mut grants = vec![0; GRANT_BYTES * draft.flows.len()];
    same("start", planner.start(&book, &mut area), accepted())?;
    let mut lines = Vec::new();
    for slot in 0..slots {
        let answer = planner.advance(&book, &mut area, &mut grants);
        same("code of advance", code_of(answer), DONE)?;
        for grant in grants.chunks(GRANT_BYTES).take(number_of(answer)) {
            let instance = u32::from_be_bytes([grant[2], grant[3], grant[4], grant[5]]);
            lines.push((slot, u16::from_be_bytes([grant[0], grant[1]]), instance, grant[6], grant[7], grant[8]));
        }
    }
    Ok(lines)
}

fn slots_of(lines: &[Line], id: u16) -> Vec<u32> {
    lines.iter().filter(|line| line.1 == id).map(|line| line.0).collect()
}

/// A flow's bound seen from outside: its deadline may be cut to the bound and no further.
fn has_bound(planner: &dyn Planner, draft: &Draft, place: usize, bound: u16) -> Result<(), String> {
    for (deadline, answer) in [(bound, accepted()), (bound - 1, packed(NO_BOUND, place))] {
        let mut cut = draft.clone();
        cut.flows[place].deadline = deadline;
        same(&format!("check with deadline {deadline} at place {place}"), planner.check(&cut.bytes()), answer)?;
    }
    Ok(())
}

fn trailer_of_a(planner: &dyn Planner) -> Result<(), String> {
    let book = book_a().bytes();
    same("length", book.len(), 90)?;
    same("trailer", &book[80..], &[0x00, 0x5A, 0x00, 0x2A, 0x00, 0x16, 0x06, 0x02, 0x46, 0x42])?;
    same("check", planner.check(&book), accepted())
}

/// The bound of flow 9 does not move with the deadline of flow 7.
fn bounds_of_a(planner: &dyn Planner) -> Result<(), String> {
    has_bound(planner, &book_a(), 0, 3)?;
    for deadline in [3, 6, 10] {
        let mut cut = book_a();
        cut.flows[0].deadline = deadline;
        has_bound(planner, &cut, 1, 5)?;
    }
    Ok(())
}

fn deadline_of_9(planner: &dyn Planner) -> Result<(), String> {
    let mut book = book_a();
    book.flows[1].deadline = 5;
    same("check with 5", planner.check(&book.bytes()), accepted())?;
    book.flows[1].deadline = 4;
    same("check with 4", planner.check(&book.bytes()), packed(NO_BOUND, 1))
}

/// The bound of flow 7 is 3. At P 7, 5 is enough for flow 9: ceil((5 + 3 - 1) / 7) is 1, where ceil((5 + 3) / 7) is 2 and takes it to 7.
/// At P 6 it isn't: ceil((5 + 3 - 1) / 6) is 2 and takes it to 7, where ceil(5 / 6) is 1.
fn period_of_7(planner: &dyn Planner) -> Result<(), String> {
    for (period, bound) in [(7, 5), (6, 7)] {
        let mut book = book_a();
        (book.flows[0].period, book.flows[0].deadline) = (period, period);
        has_bound(planner, &book, 1, bound).map_err(|what| format!("P and D {period}: {what}"))?;
    }
    Ok(())
}

/// Three flows over one link, with bounds 1, 5 and 6: ceil((6 + 1 - 1) / 6) is 1, and so is ceil((6 + 5 - 1) / 10). With 5 for the
/// first flow too, or with its deadline, there would be two instances of it.
fn own_carry(planner: &dyn Planner) -> Result<(), String> {
    let flow = |id, period, len| DraftFlow { id, phase: 0, period, deadline: period, plan: vec![(0, 1); len] };
    let draft = Draft { rows: vec![0; 2], flows: vec![flow(1, 6, 1), flow(2, 10, 4), flow(3, 20, 1)] };
    [5, 6].into_iter().zip(1..).try_for_each(|(bound, place)| has_bound(planner, &draft, place, bound))
}

/// Books that the deadline count accepts, most of them with no slot to spare for it: none is refused, and so no bound is higher.
fn by_deadline(planner: &dyn Planner) -> Result<(), String> {
    let dice = &mut Dice::new(6);
    for round in 0..400 {
        let book = accepted_by_deadline(dice, if round % 4 == 0 { &MIDDLE } else { &SMALL }).bytes();
        same("check", planner.check(&book), accepted())?;
        same("start", planner.start(&book, &mut [0; AREA_BYTES]), accepted())?;
    }
    Ok(())
}

fn slots_of_a(planner: &dyn Planner) -> Result<(), String> {
    let lines = run(planner, &book_a(), 4)?;
    let in_slot = |slot: u32| lines.iter().filter(|line| line.0 == slot).copied().collect::<Vec<_>>();
    same("slot 2", in_slot(2), vec![(2, 7, 0, 2, 2, 3)])?;
    same("slot 3", in_slot(3), vec![(3, 9, 0, 2, 3, 2)])
}

fn bounds_of_b(planner: &dyn Planner) -> Result<(), String> {
    [5, 6, 7].into_iter().enumerate().try_for_each(|(place, bound)| has_bound(planner, &book_b(), place, bound))
}

fn deadline_of_3(planner: &dyn Planner) -> Result<(), String> {
    let mut book = book_b();
    book.flows[2].deadline = 6;
    same("check with 6", planner.check(&book.bytes()), packed(NO_BOUND, 2))
}

fn run_of_b(planner: &dyn Planner) -> Result<(), String> {
    let lines = run(planner, &book_b(), 12)?;
    same("flow 2", slots_of(&lines, 2), vec![5, 10])?;
    same("flow 3", slots_of(&lines, 3), vec![6, 7, 8, 9, 11])
}

/// 0-1 and 2-3 are free with no disturbance. One alone makes them conflict if it goes from a sender to the other's
/// receiver or, for the acknowledgements, from a receiver to the other's sender, and not if both send or both receive.
fn conflict(planner: &dyn Planner) -> Result<(), String> {
    let flow = |id, sender| DraftFlow { id, phase: 0, period: 9, deadline: 9, plan: vec![(sender, sender + 1)] };
    let quiet = Draft { rows: vec![0; 4], flows: vec![flow(1, 0), flow(2, 2)] };
    waits(planner, &quiet, false).map_err(|what| format!("with no disturbance, {what}"))?;
    for who in 0..4 {
        for whom in (0..4).filter(|&whom| whom != who) {
            let mut draft = quiet.clone();
            draft.rows[who] |= 1 << whom;
            let clash = [(2, 1), (0, 3), (1, 2), (3, 0)].contains(&(who, whom));
            waits(planner, &draft, clash).map_err(|what| format!("if only {who} disturbs {whom}, {what}"))?;
        }
    }
    Ok(())
}

/// Whether the second of two flows of one step waits for the first, in the run and in its bound.
fn waits(planner: &dyn Planner, draft: &Draft, clash: bool) -> Result<(), String> {
    let lines = run(planner, draft, 2)?;
    same("slots of flow 2", slots_of(&lines, 2), vec![u32::from(clash)])?;
    if clash {
        return has_bound(planner, draft, 1, 2);
    }
    let mut cut = draft.clone();
    cut.flows[1].deadline = 1;
    same("check with deadline 1", planner.check(&cut.bytes()), accepted())
}

fn one_node(planner: &dyn Planner) -> Result<(), String> {
    let draft = Draft { rows: vec![0], flows: Vec::new() };
    same("length", draft.bytes().len(), 18)?;
    same("check", planner.check(&draft.bytes()), accepted())?;
    same("grants", run(planner, &draft, 1_000)?, Vec::new())
}

fn largest(planner: &dyn Planner) -> Result<(), String> {
    let full = regular(12, MAX_NODES, MAX_FLOWS, MAX_LEN).bytes();
    same("64 nodes and 32 flows", planner.check(&full), accepted())?;
    for (back, count) in [(4, 65), (3, 33)] {
        let mut book = full.clone();
        let at = book.len() - back;
        book[at] = count;
        same(&format!("a count of {count}"), planner.check(&book), packed(BAD_COUNT, 0))?;
    }
    for (period, answer) in [(60_000, accepted()), (60_001, packed(BAD_RECORD, 1))] {
        let mut book = book_a();
        book.flows[1].period = period;
        same(&format!("period {period}"), planner.check(&book.bytes()), answer)?;
    }
    Ok(())
}

fn last_slot(planner: &dyn Planner) -> Result<(), String> {
    let book = book_a().bytes();
    let mut area = [0; AREA_BYTES];
    same("start", planner.start(&book, &mut area), accepted())?;
    area[..SLOT_BYTES].copy_from_slice(&3_999_999_999u32.to_be_bytes());
    let mut grants = [0; 2 * GRANT_BYTES];
    same("code of slot 3,999,999,999", code_of(planner.advance(&book, &mut area, &mut grants)), DONE)?;
    same("slot after it", &area[..SLOT_BYTES], &4_000_000_000u32.to_be_bytes())?;
    let before = (area, grants);
    same("the next", planner.advance(&book, &mut area, &mut grants), packed(END_REACHED, 0))?;
    same("memory after it", (area, grants), before)
}

fn listing_of_a(planner: &dyn Planner) -> Result<(), String> {
    let wanted = vec![
        (0, 7, 0, 0, 0, 1),
        (0, 9, 0, 0, 5, 4),
        (1, 7, 0, 1, 1, 2),
        (1, 9, 0, 1, 4, 3),
        (2, 7, 0, 2, 2, 3),
        (3, 9, 0, 2, 3, 2),
        (10, 7, 1, 0, 0, 1),
        (11, 7, 1, 1, 1, 2),
    ];
    same("grants", run(planner, &book_a(), 12)?, wanted)
}

/// What is told of each flow of B in each of its first twelve slots, in which flow 3 waits twice for flow 2.
fn reasons_of_b(planner: &dyn Planner) -> Result<(), String> {
    let book = book_b().bytes();
    let (mut area, mut grants) = ([0; AREA_BYTES], [0; 3 * GRANT_BYTES]);
    same("start", planner.start(&book, &mut area), accepted())?;
    let (unreleased, finished, granted) = (told(NOT_RELEASED, 0), told(FINISHED, 0), told(GRANTED, 0));
    for slot in 0..12 {
        let wanted = match slot {
            0..=4 => [granted, told(WAITING, 0), unreleased],
            5 | 10 => [finished, granted, told(WAITING, 1)],
            _ => [finished, finished, granted],
        };
        for (place, number) in wanted.into_iter().enumerate() {
            let what = format!("why in slot {slot} at place {place}");
            same(&what, planner.why(&book, &area, place), packed(DONE, number))?;
        }
        same("code of advance", code_of(planner.advance(&book, &mut area, &mut grants)), DONE)?;
    }
    Ok(())
}

/// Faults of the book, the area and the place, put right one after the other from the first that is tested to the last. Both flows of A
/// are released in slot 60.
fn refusals_of_why(planner: &dyn Planner) -> Result<(), String> {
    let (cut, book) = (&book_a().bytes()[1..], book_a().bytes());
    let area = |slot: u32, done: [u8; 2]| [&slot.to_be_bytes()[..], &done, &[0; MAX_FLOWS - 2]].concat();
    let long_past = END_OF_SLOTS + 1;
    for (book, area, place, answer) in [
        (cut, &[][..], usize::MAX, packed(BAD_DISTANCE, 0)),
        (&book, &area(long_past, [4, 4])[..AREA_BYTES - 1], usize::MAX, packed(SHORT_MEMORY, 0)),
        (&book, &area(long_past, [3, 4]), usize::MAX, packed(BAD_AREA, 0)),
        (&book, &area(END_OF_SLOTS, [3, 4]), usize::MAX, packed(BAD_AREA, 1)),
        (&book, &area(END_OF_SLOTS, [0, 0]), usize::MAX, packed(END_REACHED, 0)),
        (&book, &area(60, [0, 0]), usize::MAX, packed(UNFINISHED, 0)),
        (&book, &area(60, [3, 0]), 2, packed(UNFINISHED, 1)),
        (&book, &area(60, [3, 3]), 2, packed(BAD_PLACE, 0)),
        (&book, &area(60, [3, 3]), 1, packed(DONE, told(GRANTED, 0))),
    ] {
        same("why", planner.why(book, area, place), answer)?;
    }
    Ok(())
}
