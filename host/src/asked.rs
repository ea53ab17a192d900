//! Requests for the five calls on a table and for check of a book: ordinary ones, and ones at and past every edge.

use crate::aimed::{self, Aimed};
use crate::answer::*;
use crate::damage;
use crate::dice::Dice;
use crate::draft::{Draft, DraftFlow};
use crate::generate::{accepted, accepted_by_deadline, newcomer, regular, Shape};
use crate::limits::*;
use crate::memory::{PlanBytes, Table};
use crate::plain::book::Record;
use crate::plain::table::read;
use crate::request::Request;
use crate::tables::{at_random, littered, of_damaged, off_by_one, places, refigured};

/// A request, and the answer that it must get where that is known beforehand.
pub struct Asked {
    pub request: Request,
    pub wanted: Option<u32>,
}

fn open(request: Request) -> Asked {
    Asked { request, wanted: None }
}

/// A slice or a buffer of a request is at most this long.
const LONGEST: usize = u16::MAX as usize;

/// All six calls on a valid book, on its table, and on damaged copies of both.
pub fn around(dice: &mut Dice, draft: &Draft) -> Vec<Asked> {
    let mut requests = Vec::new();
    for slice in slices(dice, draft) {
        requests.extend([Request::Read { slice: slice.clone() }, Request::Check { slice }]);
    }
    for table in [littered(dice, draft), at_random(dice, draft), at_random(dice, draft)] {
        requests.extend(writes(dice, &table, draft.bytes().len()));
        requests.extend(removes(dice, &table, draft.flows.len()));
        let flow = newcomer(dice, draft);
        requests.extend(places_to_add(dice, &table, draft.flows.len(), &flow));
        requests.push(Request::CheckTable { table });
    }
    requests.extend(crowded(dice));
    requests.extend(fields_to_add(dice, draft));
    requests.extend(steps_to_add(dice, draft));
    requests.extend(tight(dice, draft));
    requests.into_iter().map(open).chain(figured(dice, draft)).collect()
}

/// The book, with bytes in front of it, cut, damaged, and no book at all.
fn slices(dice: &mut Dice, draft: &Draft) -> Vec<Vec<u8>> {
    let book = draft.bytes();
    let cut = dice.below(book.len());
    let mut slices = vec![book.clone(), book[cut..].to_vec(), book[..cut].to_vec(), damage::noise(dice)];
    for front in [dice.between(1, 20), LONGEST - book.len()] {
        slices.push([dice.bytes(front), book.clone()].concat());
    }
    slices.extend((0..4).map(|_| damage::at_random(dice, &book)));
    slices
}

/// Buffers around the room that the book takes, and at both ends of their lengths.
fn writes(dice: &mut Dice, table: &Table, room: usize) -> Vec<Request> {
    let around = dice.below(room + 40);
    let longest = if dice.once_in(8) { LONGEST } else { 2 * room };
    let lengths = [0, TRAILER_BYTES - 1, room - 1, room, room + 1, around, longest];
    let request = |length| Request::Write { table: table.clone(), buffer: dice.bytes(length) };
    lengths.map(request).to_vec()
}

/// Places among and around m flows, and ones that look like these in their lower bytes alone.
fn some_places(dice: &mut Dice, flows: usize) -> Vec<u64> {
    let (m, among) = (flows as u64, dice.below(flows + 1) as u64);
    let high = 1u64 << dice.pick(&[8, 16, 31, 32, 63]);
    vec![0, among, m.saturating_sub(1), m, m + 1, MAX_FLOWS as u64, high, high + among, u64::MAX]
}

fn removes(dice: &mut Dice, table: &Table, flows: usize) -> Vec<Request> {
    let request = |place| Request::Remove { table: table.clone(), place };
    some_places(dice, flows).into_iter().map(request).collect()
}

fn places_to_add(dice: &mut Dice, table: &Table, flows: usize, flow: &DraftFlow) -> Vec<Request> {
    let request = |place| add(table, place, flow.record(), places(&flow.plan));
    some_places(dice, flows).into_iter().map(request).collect()
}

/// Tables with the most flows and with one less.
fn crowded(dice: &mut Dice) -> Vec<Request> {
    let mut requests = Vec::new();
    for flows in [MAX_FLOWS - 1, MAX_FLOWS] {
        let draft = regular(dice.roll(), 8, flows, 1);
        let (table, flow) = (littered(dice, &draft), newcomer(dice, &draft));
        requests.extend(places_to_add(dice, &table, flows, &flow));
        requests.extend(removes(dice, &table, flows));
    }
    requests
}

fn add(table: &Table, place: u64, record: Record, plan: PlanBytes) -> Request {
    Request::Add { table: table.clone(), place, record, plan }
}

/// A newcomer with each field at and beyond the ends of its range, and with the ids of other flows.
fn fields_to_add(dice: &mut Dice, draft: &Draft) -> Vec<Request> {
    let (table, flow) = (littered(dice, draft), newcomer(dice, draft));
    let (max_phase, max_period, max_len) = (MAX_PHASE as u16, MAX_PERIOD as u16, MAX_LEN as u16);
    let own = flow.record();
    let ids = draft.flows.iter().map(|other| other.id).chain([0, 1, u16::MAX]);
    let mut records: Vec<Record> = ids.map(|id| Record { id, ..own }).collect();
    records.extend([0, max_phase, max_phase + 1, u16::MAX].map(|phase| Record { phase, ..own }));
    for period in [0, 1, own.len, max_period, max_period + 1, u16::MAX] {
        records.extend([0, 1, period.saturating_sub(1), period, period.saturating_add(1)].map(|deadline| Record {
            period,
            deadline,
            ..own
        }));
    }
    records.extend([0, 1, max_len, max_len + 1, 256 + own.len, u16::MAX].map(|len| Record { len, ..own }));
    let steps = [flow.plan[0]; MAX_LEN];
    let request = |record| add(&table, dice.below(draft.flows.len() + 1) as u64, record, places(&steps));
    records.into_iter().map(request).collect()
}

/// A newcomer with one step that is bad, or only past the end of its plan.
fn steps_to_add(dice: &mut Dice, draft: &Draft) -> Vec<Request> {
    let (table, flow) = (littered(dice, draft), newcomer(dice, draft));
    let (nodes, k) = (draft.nodes() as u8, dice.below(flow.plan.len()));
    let (sender, receiver) = flow.plan[k];
    let jump = (dice.below(draft.nodes()) as u8, dice.below(draft.nodes()) as u8);
    let steps = [(nodes, receiver), (sender, nodes), (sender, sender), (u8::MAX, receiver), (sender, u8::MAX), jump];
    let mut request = |step: (u8, u8)| {
        let mut plan = places(&flow.plan);
        plan[STEP_BYTES * k..STEP_BYTES * (k + 1)].copy_from_slice(&[step.0, step.1]);
        add(&table, dice.below(draft.flows.len() + 1) as u64, flow.record(), plan)
    };
    steps.into_iter().map(&mut request).collect()
}

/// A newcomer whose deadline is at its bound, one below and one above; and a flow of the book, taken out and put in again.
fn tight(dice: &mut Dice, draft: &Draft) -> Vec<Request> {
    let mut requests = Vec::new();
    let (place, flow) = (dice.below(draft.flows.len() + 1), newcomer(dice, draft));
    let mut down_to_it = draft.clone();
    down_to_it.flows.truncate(place);
    down_to_it.flows.push(flow.clone());
    let fits = draft.nodes() > 1 && draft.flows.len() < MAX_FLOWS;
    if let Some(Ok(bounds)) = fits.then(|| down_to_it.facts().bounds()) {
        let (table, bound) = (littered(dice, draft), bounds[place]);
        let record = |deadline| Record { deadline, ..flow.record() };
        let request = |deadline| add(&table, place as u64, record(deadline), places(&flow.plan));
        requests.extend([bound, bound - 1, bound + 1].map(request));
    }
    requests.extend(put_in_again(dice, draft));
    requests
}

/// A flow of the book, if it has one, taken out of its table and added again.
fn put_in_again(dice: &mut Dice, draft: &Draft) -> Option<Request> {
    if draft.flows.is_empty() {
        return None;
    }
    let place = dice.below(draft.flows.len());
    let mut rest = draft.clone();
    let flow = rest.flows.remove(place);
    Some(add(&littered(dice, &rest), place as u64, flow.record(), places(&flow.plan)))
}

/// The calls on the table of a book with one of its figures off by one, with no figures, with small ones and with any. Only a figure of a
/// flow and one above it says anything.
fn figured(dice: &mut Dice, draft: &Draft) -> Vec<Asked> {
    let (_, right) = read(&draft.bytes());
    let calls = table_calls(dice, &right, draft);
    let answers: Vec<u32> = calls.iter().map(|call| call.reply_of_plain().answer()).collect();
    let mut asked = Vec::new();
    for (l, h) in pairs(dice, draft.flows.len()) {
        let off = off_by_one(dice, &right, l, h);
        let says = h < l && l < draft.flows.len();
        let wanted = |call: &Request, answer: u32| match call {
            Request::Add { .. } | Request::Remove { .. } if says => Some(packed(BAD_FIGURE, l)),
            Request::CheckTable { .. } if says => None,
            _ => Some(answer),
        };
        let both = calls.iter().zip(&answers);
        asked.extend(both.map(|(call, &answer)| Asked { request: call.on(&off), wanted: wanted(call, answer) }));
    }
    for most in [0, 2, u8::MAX] {
        let other = refigured(dice, &right, most);
        asked.extend(calls.iter().map(|call| open(call.on(&other))));
    }
    asked
}

/// Flows l and h: h above l, the same, below it, and l or both no flows of the m.
fn pairs(dice: &mut Dice, m: usize) -> Vec<(usize, usize)> {
    let mut pairs = Vec::new();
    if m > 1 {
        let l = dice.between(1, m - 1);
        pairs.extend([(1, 0), (m - 1, m - 2), (l, dice.below(l))]);
    }
    if m > 0 {
        let l = dice.below(m);
        pairs.extend([(l, l), (l, dice.between(l, MAX_FLOWS - 1))]);
    }
    if m < MAX_FLOWS {
        pairs.extend([(m, 0), (dice.between(m, MAX_FLOWS - 1), dice.below(MAX_FLOWS))]);
    }
    pairs
}

/// Check of accepted books and of their tables, as they come and with every deadline cut to its bound, which moves no bound.
pub fn bounded(dice: &mut Dice, shape: &Shape) -> Vec<Asked> {
    let mut asked = Vec::new();
    for _ in 0..8 {
        let mut draft = accepted(dice, shape);
        asked.push(passes(Request::Check { slice: draft.bytes() }));
        let bounds = draft.facts().bounds().expect("an accepted book");
        draft.flows.iter_mut().zip(bounds).for_each(|(flow, bound)| flow.deadline = bound);
        asked.push(passes(Request::Check { slice: draft.bytes() }));
        asked.push(passes(Request::CheckTable { table: littered(dice, &draft) }));
    }
    asked
}

/// What the deadline count accepts, most of it with no slot to spare, is accepted: by both checks, and by adding, where the rest of the
/// table has passed.
pub fn by_deadline(dice: &mut Dice, shape: &Shape) -> Vec<Asked> {
    let draft = accepted_by_deadline(dice, shape);
    let mut asked = vec![
        passes(Request::Check { slice: draft.bytes() }),
        passes(Request::CheckTable { table: littered(dice, &draft) }),
    ];
    asked.extend(put_in_again(dice, &draft).map(passes));
    asked
}

fn passes(request: Request) -> Asked {
    Asked { request, wanted: Some(packed(DONE, 0)) }
}

/// Damaged copies of an accepted book, each made to meet one code, read and checked; and their tables, handed to the other calls.
pub fn aimed(dice: &mut Dice, draft: &Draft) -> Vec<Asked> {
    let mut requests = Vec::new();
    for Aimed { book, answer } in aimed::around(dice, draft) {
        let damaged = of_damaged(dice, draft, &book);
        let read = if code_of(answer) == NO_BOUND { packed(DONE, 0) } else { answer };
        requests.push(Asked { request: Request::Read { slice: book.clone() }, wanted: Some(read) });
        requests.push(Asked { request: Request::Check { slice: book }, wanted: Some(answer) });
        let tested = [BAD_COUNT, BAD_ROW, BAD_RECORD, BAD_STEP].contains(&code_of(answer));
        // No damage but to what is tested touches a row or a step, so that the figures stay right.
        let checked = tested || [DONE, NO_BOUND].contains(&code_of(answer));
        if let Some(table) = damaged {
            let mut calls = table_calls(dice, &table, draft);
            let request = calls.swap_remove(dice.below(calls.len()));
            requests.push(Asked { request, wanted: tested.then_some(answer) });
            requests.push(Asked { request: Request::CheckTable { table }, wanted: checked.then_some(answer) });
        }
    }
    requests
}

/// Each of the calls that are handed a table, at a place among its flows and at one past them.
fn table_calls(dice: &mut Dice, table: &Table, draft: &Draft) -> Vec<Request> {
    let (m, flow) = (draft.flows.len(), newcomer(dice, draft));
    let mut calls = vec![
        Request::Write { table: table.clone(), buffer: dice.bytes(draft.bytes().len()) },
        Request::CheckTable { table: table.clone() },
    ];
    for place in [dice.below(m + 1) as u64, dice.pick(&[m as u64 + 1, u64::MAX])] {
        calls.push(add(table, place, flow.record(), places(&flow.plan)));
    }
    for place in [dice.below(m) as u64, dice.pick(&[m as u64, u64::MAX])] {
        calls.push(Request::Remove { table: table.clone(), place });
    }
    calls
}
