//! Cases that look inside `plain`: its rules on bare facts, and its five calls on a table.

use crate::answer::*;
use crate::capacity::{self, by_bounds, by_deadline, by_run, long_enough, rephased, Load, Offer};
use crate::cases::same;
use crate::dice::Dice;
use crate::draft::{book_a, book_b, Draft, DraftFlow};
use crate::generate::{accepted, accepted_by_deadline, any, regular, MIDDLE, SMALL};
use crate::limits::*;
use crate::memory::{figure_at, PlanBytes, Table, PLAN_BYTES};
use crate::plain::book::{Record, Transmission};
use crate::plain::rules::{by_choices, by_recursion, Matrix};
use crate::plain::table::{add, check, read, remove, write};
use crate::plain::{run, Refusal};
use crate::tables::{littered, places, refigured};

pub type PlainCase = (&'static str, fn() -> Result<(), String>);

pub const PLAIN_CASES: &[PlainCase] = &[
    ("2, I(9,7) and its conflicts", interference_of_a),
    ("3 and 6, bounds as figures", bounds_of_both),
    ("beside the deadline count, no table more is refused and no bound is higher", beside_deadlines),
    ("9, a bare matrix", bare_matrix),
    ("10, 0-1 and 2-3 in both orders", one_disturbance),
    ("the two ways to the interference agree", both_ways),
    ("a written book reads back", round_trip),
    ("codes of writing", codes_of_writing),
    ("codes of adding, in their order", codes_of_adding),
    ("adding retests the flows below", adding_retests),
    ("codes of removing", codes_of_removing),
    ("removing what was added", add_then_remove),
    ("figures of a table that was read", figures_of_both),
    ("17 with the first flow, after 8, ahead of 14 and 15", wrong_figures),
    ("figures that say nothing", ignored_figures),
    ("check of a table by its figures", check_by_figures),
    ("a run flow by flow is one slot by slot", flow_by_flow),
    ("a run that is long enough, and what the bounds let in", long_runs),
];

fn interference_of_a() -> Result<(), String> {
    let facts = book_a().facts();
    let pairs: Vec<_> =
        facts.flows[1].plan.iter().flat_map(|&l| facts.flows[0].plan.iter().map(move |&h| (l, h))).collect();
    let conflicting: Vec<_> = pairs.into_iter().filter(|&(l, h)| facts.conflict(l, h)).collect();
    same("conflicts", conflicting, vec![((4, 3), (2, 3)), ((3, 2), (1, 2)), ((3, 2), (2, 3))])?;
    same("I(9,7)", facts.interference(1, 0), 2)
}

/// The bounds of the first flows, zeros elsewhere.
fn padded(bounds: &[u16]) -> Result<[u16; MAX_FLOWS], Refusal> {
    let mut all = [0; MAX_FLOWS];
    all[..bounds.len()].copy_from_slice(bounds);
    Ok(all)
}

fn bounds_of_both() -> Result<(), String> {
    same("A", run::check(&book_a().bytes()), padded(&[3, 5]))?;
    same("B", run::check(&book_b().bytes()), padded(&[5, 6, 7]))?;
    let mut cut = book_b();
    cut.flows[2].deadline = 6;
    same("B cut", run::check(&cut.bytes()), Err(Refusal { code: NO_BOUND, number: 2 }))
}

/// Random tables, with right figures and with any: if the deadline count accepts one, so does the count by bounds, and no bound is higher;
/// if it refuses one, it is at no later flow. There are bounds that are lower, and tables that only the deadline count refuses.
fn beside_deadlines() -> Result<(), String> {
    let dice = &mut Dice::new(8);
    let (mut lower, mut let_in) = (0, 0);
    for round in 0..1_000 {
        let shape = if round % 4 == 0 { &MIDDLE } else { &SMALL };
        let draft = if dice.once_in(2) { any(dice, shape) } else { accepted_by_deadline(dice, shape) };
        let (facts, most) = (draft.facts(), dice.pick(&[1, 3, 9]));
        let made_up: Vec<Vec<u64>> = (0..facts.flows.len()).map(|l| figures(dice, l, most)).collect();
        for line in [&|l: usize| facts.line(l), &|l: usize| made_up[l].clone()] as [&dyn Fn(usize) -> Vec<u64>; 2] {
            match (facts.bounds_by_deadline(line), facts.bounds_by(line)) {
                (Ok(before), Ok(now)) => {
                    let higher = before.iter().zip(&now).any(|(before, now)| now > before);
                    same(&format!("a higher bound, {before:?} and {now:?}"), higher, false)?;
                    lower += usize::from(now != before);
                }
                (Err(_), Ok(_)) => let_in += 1,
                (Ok(_), Err(now)) => return Err(format!("refused at flow {}", now.number)),
                (Err(before), Err(now)) => same("refused at an earlier flow", now.number < before.number, false)?,
            }
        }
    }
    same("any bounds lower, any tables let in", (lower > 0, let_in > 0), (true, true))
}

/// Figures for flow l, each at most so many.
fn figures(dice: &mut Dice, l: usize, most: usize) -> Vec<u64> {
    (0..l).map(|_| dice.between(0, most) as u64).collect()
}

fn bare_matrix() -> Result<(), String> {
    let marks: [&[usize]; 4] = [&[4, 5], &[1, 2, 3, 4, 5], &[1, 2, 3, 4], &[0]];
    let matrix: Matrix = marks.iter().map(|row| (0..6).map(|column| row.contains(&column)).collect()).collect();
    same("by choices", by_choices(&matrix), 5)?;
    same("by recursion", by_recursion(&matrix), 5)
}

fn one_disturbance() -> Result<(), String> {
    let crossing = [(0, 3), (3, 0), (1, 2), (2, 1)];
    let harmless = [(0, 2), (2, 0), (1, 3), (3, 1), (0, 1), (1, 0), (2, 3), (3, 2)];
    for (pairs, conflict) in [(&crossing[..], true), (&harmless[..], false)] {
        for &(who, whom) in pairs {
            let mut draft = Draft { rows: vec![0; 4], flows: Vec::new() };
            draft.rows[who] |= 1 << whom;
            let facts = draft.facts();
            let found = [facts.conflict((0, 1), (2, 3)), facts.conflict((2, 3), (0, 1))];
            same(&format!("only {who} disturbs {whom}"), found, [conflict; 2])?;
        }
    }
    Ok(())
}

fn both_ways() -> Result<(), String> {
    let dice = &mut Dice::new(9);
    for _ in 0..2_000 {
        let (rows, columns, rarity) = (dice.between(1, 6), dice.between(1, 6), dice.between(1, 4));
        let matrix: Matrix = (0..rows).map(|_| (0..columns).map(|_| dice.once_in(rarity)).collect()).collect();
        same(&format!("{matrix:?}"), by_recursion(&matrix), by_choices(&matrix))?;
    }
    Ok(())
}

fn round_trip() -> Result<(), String> {
    let dice = &mut Dice::new(10);
    for round in 0..300 {
        let draft = any(dice, if round % 4 == 0 { &MIDDLE } else { &SMALL });
        let book = draft.bytes();
        let (answer, table) = read(&book);
        same("read", answer, packed(DONE, 0))?;
        for kept in [littered(dice, &draft), refigured(dice, &table, u8::MAX)] {
            let mut buffer = vec![0xEE; book.len() + 7];
            same("write", write(&kept, &mut buffer), packed(DONE, book.len()))?;
            same("book", &buffer[..book.len()], &book[..])?;
            same("bytes behind it", &buffer[book.len()..], &[0xEE; 7])?;
            same("read again", read(&buffer[..book.len()]), (packed(DONE, 0), table.clone()))?;
        }
    }
    let refused = read(&book_a().bytes()[1..]);
    same("a refused book", refused, (packed(BAD_DISTANCE, 0), Table::zeros()))
}

fn codes_of_writing() -> Result<(), String> {
    let dice = &mut Dice::new(11);
    let good = littered(dice, &book_a());
    let mut buffer = [0xEE; 89];
    same("short buffer", write(&good, &mut buffer), packed(SHORT_MEMORY, 0))?;
    for (wanted, bad) in faulty_tables(&good) {
        same("write", write(&bad, &mut buffer), wanted)?;
        same("add", add(&bad, 0, newcomer(3, &[(0, 1)]).0, &[0; PLAN_BYTES]), (wanted, bad.clone()))?;
        same("remove", remove(&bad, 0), (wanted, bad))?;
    }
    same("buffer", buffer, [0xEE; 89])
}

/// Book A's table with one fault each, and the answer it must get.
fn faulty_tables(good: &Table) -> Vec<(u32, Table)> {
    let changed = |change: fn(&mut Table)| {
        let mut table = good.clone();
        change(&mut table);
        table
    };
    vec![
        (packed(BAD_COUNT, 0), changed(|table| table.n = 0)),
        (packed(BAD_COUNT, 0), changed(|table| table.n = 65)),
        (packed(BAD_COUNT, 0), changed(|table| table.m = 33)),
        (packed(BAD_ROW, 2), changed(|table| table.rows[2 * ROW_BYTES] |= 1 << 2)),
        (packed(BAD_RECORD, 1), changed(|table| table.records[RECORD_BYTES + 1] = 7)),
        (packed(BAD_STEP, 4), changed(|table| table.steps[4 * STEP_BYTES] = 1)),
    ]
}

fn newcomer(id: u16, steps: &[(u8, u8)]) -> (Record, PlanBytes) {
    (Record { id, phase: 0, period: 900, deadline: 900, len: steps.len() as u16 }, places(steps))
}

fn codes_of_adding() -> Result<(), String> {
    let dice = &mut Dice::new(14);
    let full = littered(dice, &regular(14, 8, MAX_FLOWS, 2));
    let (record, plan) = newcomer(0, &[(9, 9)]);
    same("14 ahead of 15 and 6", add(&full, 99, record, &plan), (packed(TABLE_FULL, 0), full.clone()))?;

    let table = littered(dice, &book_a());
    let refused = |place: usize, (record, plan): (Record, PlanBytes), code: u32, number: usize| {
        let wanted = (packed(code, number), table.clone());
        same(&format!("adding flow {} at {place}", record.id), add(&table, place, record, &plan), wanted)
    };
    refused(3, newcomer(0, &[(9, 9)]), BAD_PLACE, 0)?;
    refused(1, newcomer(0, &[(9, 9)]), BAD_RECORD, 1)?;
    refused(2, newcomer(7, &[(0, 1)]), BAD_RECORD, 2)?;
    refused(0, newcomer(9, &[(0, 1)]), BAD_RECORD, 2)?;
    refused(1, newcomer(3, &[]), BAD_RECORD, 1)?;
    let (mut long, plan) = newcomer(3, &[(0, 1); MAX_LEN]);
    long.len = MAX_LEN as u16 + 1;
    refused(1, (long, plan), BAD_RECORD, 1)?;
    long.len = u16::MAX;
    refused(1, (long, plan), BAD_RECORD, 1)?;
    refused(1, newcomer(3, &[(0, 1), (2, 3)]), BAD_STEP, 4)?;
    let (mut tight, plan) = newcomer(3, &[(0, 1), (0, 1)]);
    tight.deadline = 1;
    refused(2, (tight, plan), NO_BOUND, 2)
}

fn adding_retests() -> Result<(), String> {
    let mut draft = book_a();
    draft.flows[1].deadline = 5;
    let (_, table) = read(&draft.bytes());
    let (record, plan) = newcomer(3, &[(4, 5)]);
    same("at the top", add(&table, 0, record, &plan), (packed(NO_BOUND, 2), table.clone()))?;
    same("at the bottom", add(&table, 2, record, &plan).0, packed(DONE, 0))
}

fn codes_of_removing() -> Result<(), String> {
    let table = littered(&mut Dice::new(15), &book_a());
    same("no such place", remove(&table, 2), (packed(BAD_PLACE, 0), table.clone()))?;
    let mut rest = book_a();
    rest.flows.remove(0);
    same("the first", remove(&table, 0), (packed(DONE, 0), read(&rest.bytes()).1))
}

fn add_then_remove() -> Result<(), String> {
    let dice = &mut Dice::new(16);
    for _ in 0..300 {
        let draft = accepted(dice, &SMALL);
        if draft.flows.is_empty() {
            continue;
        }
        let whole = read(&draft.bytes()).1;
        let place = dice.below(draft.flows.len());
        let mut rest = draft.clone();
        let flow = rest.flows.remove(place);
        let without = read(&rest.bytes()).1;
        same("remove", remove(&littered(dice, &draft), place), (packed(DONE, 0), without))?;
        let back = add(&littered(dice, &rest), place, flow.record(), &places(&flow.plan));
        same("add", back, (packed(DONE, 0), whole))?;
    }
    Ok(())
}

/// A table with other figures for some pairs of flows.
fn with_figures(table: &Table, figures: &[((usize, usize), u8)]) -> Table {
    let mut other = table.clone();
    figures.iter().for_each(|&((l, h), figure)| other.figures[figure_at(l, h)] = figure);
    other
}

fn figures_of_both() -> Result<(), String> {
    for (draft, figures) in [(book_a(), &[((1, 0), 2)][..]), (book_b(), &[((1, 0), 5), ((2, 1), 1)])] {
        same("figures", read(&draft.bytes()).1.figures, with_figures(&Table::zeros(), figures).figures)?;
    }
    Ok(())
}

fn wrong_figures() -> Result<(), String> {
    let (record, plan) = newcomer(4, &[(0, 1)]);
    let refused = |table: &Table, place: usize, answer: u32| {
        same("add", add(table, place, record, &plan), (answer, table.clone()))?;
        same("remove", remove(table, place), (answer, table.clone()))
    };
    let mut wrong = with_figures(&littered(&mut Dice::new(17), &book_b()), &[((1, 0), 4), ((2, 0), 1)]);
    [0, 3, 99].into_iter().try_for_each(|place| refused(&wrong, place, packed(BAD_FIGURE, 1)))?;
    wrong.steps[0] = 1;
    refused(&wrong, 99, packed(BAD_STEP, 0))?;
    let full = read(&regular(17, 8, MAX_FLOWS, 2).bytes()).1;
    let last = with_figures(&full, &[((31, 30), full.figures[figure_at(31, 30)] + 1)]);
    refused(&last, 99, packed(BAD_FIGURE, 31))
}

fn ignored_figures() -> Result<(), String> {
    let (table, (record, plan)) = (read(&book_b().bytes()).1, newcomer(4, &[(0, 1)]));
    for (l, h) in [(0, 0), (2, 2), (0, 1), (1, 31), (3, 0), (31, 30)] {
        let other = with_figures(&table, &[((l, h), 1)]);
        same("add", add(&other, 3, record, &plan), add(&table, 3, record, &plan))?;
        same("remove", remove(&other, 1), remove(&table, 1))?;
        same("check", check(&other), padded(&[5, 6, 7]))?;
    }
    same("added", add(&table, 3, record, &plan).0, packed(DONE, 0))
}

/// With 255 for I(9,7) no R up to 12 is enough; I(7,9) is not looked at.
fn check_by_figures() -> Result<(), String> {
    let table = littered(&mut Dice::new(18), &book_a());
    same("right", check(&table), padded(&[3, 5]))?;
    for (figure, wanted) in
        [(0, padded(&[3, 3])), (1, padded(&[3, 4])), (255, Err(Refusal { code: NO_BOUND, number: 1 }))]
    {
        same(&format!("{figure} for 2"), check(&with_figures(&table, &[((1, 0), figure)])), wanted)?;
    }
    let (mut short, refusal) = (table, Refusal { code: BAD_COUNT, number: 0 });
    short.n = 0;
    same("3 ahead of 9", check(&short), Err(refusal))
}

/// The transmissions of so many slots, unless a deadline within them is missed, by advancing.
fn slot_by_slot(draft: &Draft, end: usize) -> Option<Vec<Vec<Transmission>>> {
    let (book, mut grants) = (draft.bytes(), vec![0; GRANT_BYTES * draft.flows.len()]);
    let mut area = [0; AREA_BYTES];
    draft.flows.iter().zip(&mut area[SLOT_BYTES..]).for_each(|(flow, done)| *done = flow.plan.len() as u8);
    let mut slots = Vec::new();
    for slot in 0..end {
        let count = run::advance(&book, &mut area, &mut grants).ok()?;
        let step = |grant: &[u8]| (usize::from(grant[7]), usize::from(grant[8]));
        slots.push(grants.chunks(GRANT_BYTES).take(count).map(step).collect());
        let missed = |(flow, &done): (&DraftFlow, &u8)| {
            let (phase, period) = (usize::from(flow.phase), usize::from(flow.period));
            let last = slot >= phase && (slot - phase) % period + 1 == usize::from(flow.deadline);
            last && usize::from(done) < flow.plan.len()
        };
        if draft.flows.iter().zip(&area[SLOT_BYTES..]).any(missed) {
            return None;
        }
    }
    Some(slots)
}

fn flow_by_flow() -> Result<(), String> {
    let dice = &mut Dice::new(19);
    let (mut kept, mut missed) = (0, 0);
    for _ in 0..300 {
        let draft = any(dice, &SMALL);
        let slots = capacity::run(&draft.facts(), 200);
        same("slots", &slots, &slot_by_slot(&draft, 200))?;
        kept += usize::from(slots.is_some());
        missed += usize::from(slots.is_none());
    }
    same("some of each", (kept > 50, missed > 50), (true, true))
}

/// What the deadline count lets in passes by the bounds, and what the bounds let in keeps its deadlines, from any phases. A run that keeps
/// them for long enough keeps them for longer, and some do not.
fn long_runs() -> Result<(), String> {
    let dice = &mut Dice::new(20);
    let mut missed = 0;
    for round in 0..40 {
        let offer = Offer::draw(dice, Load { stretch: 1, short_deadlines: round % 2 == 0 });
        same("by the bounds", offer.let_in(by_deadline).bounds().is_ok(), true)?;
        let let_in = offer.let_in(by_bounds);
        (0..4).try_for_each(|_| same("by a run", by_run(&rephased(dice, &let_in)), true))?;
        let borne = offer.let_in(|facts, _| by_run(facts));
        same("a longer run", capacity::run(&borne, 4 * long_enough(&borne)).is_some(), true)?;
        missed += usize::from(borne.flows.len() < offer.count());
    }
    same("some miss a deadline", missed > 10, true)
}
