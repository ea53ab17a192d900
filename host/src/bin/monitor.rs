//! Long runs of accepted books with tight deadlines, watched for every promise about deadlines.
//!
//!     monitor [--books N] [--slots N] [--seed S]

use slot_host::call::hex;
use slot_host::dice::Dice;
use slot_host::draft::{book_a, book_b, Draft};
use slot_host::generate::{accepted, Shape, CROWDED, FULL, MIDDLE, SMALL};
use slot_host::options::Options;
use slot_host::planner::{self, Planner};
use slot_host::watch::{watch, Tally};
use std::process::ExitCode;

const BOOKS: u64 = 600;
const SLOTS: u64 = 3_000;

fn main() -> ExitCode {
    let mut options = Options::from_args();
    let (books, slots) = (options.number("--books", BOOKS), options.number("--slots", SLOTS));
    let seed = options.number("--seed", 1);
    options.finish();
    println!("{books} books, {slots} slots each, seed {seed}");
    let dice = &mut Dice::new(seed);
    let drafts: Vec<Draft> = (0..books).map(|k| draft(dice, k)).collect();
    for planner in planner::all() {
        if let Err(what) = watch_all(planner, &drafts, slots) {
            println!("{}: {what}", planner.name());
            return ExitCode::FAILURE;
        }
    }
    ExitCode::SUCCESS
}

/// The books of the rules, then random ones of every size.
fn draft(dice: &mut Dice, k: u64) -> Draft {
    let shape: &Shape = match k % 40 {
        0 => &FULL,
        10 | 20 => &CROWDED,
        r if r % 2 == 0 => &MIDDLE,
        _ => &SMALL,
    };
    match k {
        0 => book_a(),
        1 => book_b(),
        _ => accepted(dice, shape),
    }
}

fn watch_all(planner: &dyn Planner, drafts: &[Draft], slots: u64) -> Result<(), String> {
    let mut tally = Tally::default();
    for draft in drafts {
        let book = draft.bytes();
        let seen = watch(planner, &book, slots).map_err(|what| format!("{what}\n  book {}", hex(&book)))?;
        tally.add(&seen);
    }
    println!(
        "{}: {} slots, {} grants, {} whole instances, each within its bound, {} of them after waiting to its last slot",
        planner.name(),
        tally.slots,
        tally.grants,
        tally.instances,
        tally.at_bound
    );
    Ok(())
}
