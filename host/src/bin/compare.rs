//! Asks two planners the same questions and compares everything they leave behind.
//!
//!     compare [--calls N] [--seed S] [--between A B]
//!     compare again KIND BOOK AREA GRANTS PLACE [--between A B]     one call, from the words of a mismatch

use slot_host::aimed::{self, Aimed};
use slot_host::answer::{code_of, packed, DONE, NO_BOUND};
use slot_host::areas;
use slot_host::call::{from_hex, Call, Kind, Outcome};
use slot_host::damage;
use slot_host::dice::Dice;
use slot_host::draft::Draft;
use slot_host::generate::{accepted, of_round, Shape};
use slot_host::limits::*;
use slot_host::options::Options;
use slot_host::planner::{self, Planner};
use slot_host::tally::Tally;
use std::process::ExitCode;

const CALLS: u64 = 600_000;

fn main() -> ExitCode {
    let mut options = Options::from_args();
    let pair = options.pair("--between").unwrap_or((planner::under_test().name().into(), "plain".into()));
    let (Some(a), Some(b)) = (planner::named(&pair.0), planner::named(&pair.1)) else {
        println!("no such planner in this build: {} or {}", pair.0, pair.1);
        return ExitCode::FAILURE;
    };
    let tally = Tally::new(Kind::ALL.map(Kind::answers));
    let mut desk = Desk { a, b, tally };
    let outcome = if options.word("again") {
        again(&mut desk, options.rest())
    } else {
        let (calls, seed) = (options.number("--calls", CALLS), options.number("--seed", 1));
        options.finish();
        println!("{} against {}, seed {seed}", a.name(), b.name());
        compare(&mut desk, calls, seed)
    };
    match outcome {
        Ok(()) => ExitCode::SUCCESS,
        Err(what) => {
            println!("{what}");
            ExitCode::FAILURE
        }
    }
}

/// Where the two planners meet, with a count for every call, code and reason.
struct Desk {
    a: &'static dyn Planner,
    b: &'static dyn Planner,
    tally: Tally,
}

impl Desk {
    fn ask(&mut self, call: Call) -> Result<Outcome, String> {
        let (ours, theirs) = (call.make(self.a), call.make(self.b));
        if ours != theirs || !ours.kept_out {
            let (a, b) = (self.a.name(), self.b.name());
            return Err(format!("MISMATCH\n  {a}: {ours}\n  {b}: {theirs}\n  to repeat: compare again {call}"));
        }
        let code = code_of(ours.answer);
        self.tally.count(call.kind.name(), code, call.reason(ours.answer));
        Ok(ours)
    }

    /// All four calls on one slice, whatever it is.
    fn ask_all(&mut self, dice: &mut Dice, book: &[u8], draft: &Draft) -> Result<[u32; 4], String> {
        let checked = self.ask(Call::check(book))?;
        let started = self.ask(Call::start(book, &areas::memory(dice)))?;
        let (area, grants) = (areas::area(dice, draft), areas::grants(dice, draft.flows.len()));
        let advanced = self.ask(Call::advance(book, &area, &grants))?;
        let told = self.ask_why(dice, book, &area, draft)?;
        Ok([checked.answer, started.answer, advanced.answer, told])
    }

    /// Why, of a place at random.
    fn ask_why(&mut self, dice: &mut Dice, book: &[u8], area: &[u8], draft: &Draft) -> Result<u32, String> {
        let place = areas::place(dice, draft.flows.len());
        Ok(self.ask(Call::why(book, area, place))?.answer)
    }
}

fn compare(desk: &mut Desk, calls: u64, seed: u64) -> Result<(), String> {
    let dice = &mut Dice::new(seed);
    let mut round = 0;
    while desk.tally.total() < calls {
        let (shape, draft) = of_round(dice, round);
        one_book(desk, dice, &draft).map_err(|what| format!("round {round}: {what}"))?;
        if round % 8 == 3 {
            aimed_books(desk, dice, shape).map_err(|what| format!("round {round}, aimed: {what}"))?;
        }
        round += 1;
    }
    println!("{} calls on {round} books and damaged copies of them: no difference", desk.tally.total());
    desk.tally.close()
}

/// A valid book: the four calls, many slots out of any area, a run from start and one from anywhere, and damaged
/// copies.
fn one_book(desk: &mut Desk, dice: &mut Dice, draft: &Draft) -> Result<(), String> {
    let book = draft.bytes();
    desk.ask_all(dice, &book, draft)?;
    for _ in 0..24 {
        let (area, grants) = (areas::area(dice, draft), areas::grants(dice, draft.flows.len()));
        desk.ask(Call::advance(&book, &area, &grants))?;
        desk.ask_why(dice, &book, &area, draft)?;
    }
    let started = desk.ask(Call::start(&book, &areas::memory(dice)))?;
    if started.answer == packed(DONE, 0) {
        run(desk, dice, draft, &book, started.area)?;
    }
    let anywhere = areas::area(dice, draft);
    run(desk, dice, draft, &book, anywhere)?;
    for _ in 0..4 {
        let damaged = damage::at_random(dice, &book);
        desk.ask_all(dice, &damaged, draft)?;
    }
    let noise = damage::noise(dice);
    desk.ask_all(dice, &noise, draft)?;
    Ok(())
}

/// Slots in a row, as long as none is refused.
fn run(desk: &mut Desk, dice: &mut Dice, draft: &Draft, book: &[u8], mut area: Vec<u8>) -> Result<(), String> {
    let slots = dice.pick(&[20, 60, 60, 300]);
    let mut grants = dice.bytes(GRANT_BYTES * draft.flows.len() + 3);
    for _ in 0..slots {
        desk.ask_why(dice, book, &area, draft)?;
        let advanced = desk.ask(Call::advance(book, &area, &grants))?;
        if code_of(advanced.answer) != DONE {
            break;
        }
        (area, grants) = (advanced.area, advanced.grants);
    }
    Ok(())
}

/// Books that must get one certain answer.
fn aimed_books(desk: &mut Desk, dice: &mut Dice, shape: &Shape) -> Result<(), String> {
    let draft = accepted(dice, shape);
    for Aimed { book, answer } in aimed::around(dice, &draft) {
        let [checked, started, advanced, told] = desk.ask_all(dice, &book, &draft)?;
        let passes = answer == packed(DONE, 0);
        let wrong = checked != answer
            || (!passes && started != answer)
            || (!passes && code_of(answer) != NO_BOUND && [advanced, told] != [answer; 2]);
        if wrong {
            let (code, call) = (code_of(answer), Call::check(&book));
            return Err(format!("WRONG ANSWER, both, where code {code} was aimed at\n  compare again {call}"));
        }
    }
    Ok(())
}

fn again(desk: &mut Desk, words: &[String]) -> Result<(), String> {
    let usage = || "compare again KIND BOOK AREA GRANTS, in hex, - for nothing, and PLACE".to_string();
    let [kind, book, area, grants, place] = words else { return Err(usage()) };
    let kind = Kind::ALL.into_iter().find(|known| known.name() == kind).ok_or_else(usage)?;
    let bytes = |text: &String| from_hex(text).ok_or_else(usage);
    let (book, area, grants) = (bytes(book)?, bytes(area)?, bytes(grants)?);
    let place = place.parse().map_err(|_| usage())?;
    let outcome = desk.ask(Call { kind, book: &book, area: &area, grants: &grants, place })?;
    println!("{} and {}: {outcome}", desk.a.name(), desk.b.name());
    Ok(())
}
