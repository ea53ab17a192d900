//! Takes the flow at every place out of accepted tables, on `plain` and on the proved calls, and judges that nothing is hurt. Before that,
//! every spoiled claim and call has to be seen.
//!
//!     removal [--tables N] [--slots N] [--seed S]
//!     removal again BOOK PLACE [--slots N]            one removal, from the words of a finding

use slot_host::call::{from_hex, hex};
use slot_host::dice::Dice;
use slot_host::memory::Table;
use slot_host::options::Options;
use slot_host::plain::table::read;
use slot_host::removal::claim::NEVER_HURTS;
use slot_host::removal::met::Met;
use slot_host::removal::spoiled::{Spoiled, SPOILED};
use slot_host::removal::tables::of_round;
use slot_host::removal::{chain, each_place, proved, Calls, Removal, PLAIN};
use std::process::ExitCode;

const TABLES: u64 = 2_000;
/// How many of the first slots of the two runs are compared.
const SLOTS: u64 = 60;
/// How many tables are asked about at a time, and of a spoiled claim or call.
const BATCH: usize = 200;
const SMALL_BATCH: usize = 10;

fn main() -> ExitCode {
    let mut options = Options::from_args();
    let (tables, slots) = (options.number("--tables", TABLES), options.number("--slots", SLOTS) as usize);
    let seed = options.number("--seed", 1);
    let outcome = if options.word("again") {
        again(options.rest(), slots)
    } else {
        options.finish();
        println!("{tables} tables, the first {slots} slots of each run, seed {seed}");
        teeth(slots, seed).and_then(|()| all_calls().iter().try_for_each(|calls| take_out(calls, tables, slots, seed)))
    };
    match outcome {
        Ok(()) => ExitCode::SUCCESS,
        Err(what) => {
            println!("{what}");
            ExitCode::FAILURE
        }
    }
}

/// All that there are in this build.
fn all_calls() -> Vec<Calls> {
    [Some(PLAIN), proved()].into_iter().flatten().collect()
}

/// Every one that is spoiled has to be seen, by the point that it breaks.
fn teeth(slots: usize, seed: u64) -> Result<(), String> {
    for Spoiled { what, claim, calls, seen_by } in &SPOILED {
        let mut seen = None;
        batches(TABLES, SMALL_BATCH, seed, |batch| {
            each_place(calls, batch, slots, |removal| {
                let finding = claim.judge(removal).err().filter(|finding| finding.point == *seen_by);
                seen = seen.take().or(finding);
                Ok(())
            })?;
            Ok(seen.is_none())
        })?;
        match seen {
            Some(finding) => println!("spoiled: {what}: seen, {finding}"),
            None => return Err(format!("spoiled: {what}: NOT SEEN")),
        }
    }
    Ok(())
}

fn take_out(calls: &Calls, tables: u64, slots: usize, seed: u64) -> Result<(), String> {
    let told = |what: String| format!("{}: {what}", calls.name);
    chain::shown(calls).map_err(|what| told(format!("the chain: {what}")))?;
    let mut met = Met::default();
    batches(tables, BATCH, seed, |batch| {
        each_place(calls, batch, slots, |removal| judge(removal).map(|()| met.count(removal))).map(|()| true)
    })
    .map_err(told)?;
    met.close().map_err(told)?;
    println!(
        "{}: nothing is hurt at {} places of {tables} tables, nor in {} slots of two runs, with {} grants to flows above",
        calls.name, met.places, met.slots, met.grants
    );
    Ok(())
}

/// So many tables, some at a time, as long as `ask` wants more.
fn batches(
    tables: u64,
    some: usize,
    seed: u64,
    mut ask: impl FnMut(&[Table]) -> Result<bool, String>,
) -> Result<(), String> {
    let (dice, mut rounds) = (&mut Dice::new(seed), 0..tables);
    while !rounds.is_empty() {
        let batch: Vec<Table> = rounds.by_ref().take(some).map(|round| of_round(dice, round)).collect();
        if !ask(&batch)? {
            break;
        }
    }
    Ok(())
}

fn judge(removal: &Removal) -> Result<(), String> {
    let again = || format!("removal again {} {}", hex(removal.before.book()), removal.place);
    NEVER_HURTS.judge(removal).map_err(|finding| format!("HURT: {finding}\n  to repeat: {}", again()))
}

fn again(words: &[String], slots: usize) -> Result<(), String> {
    let usage = || "removal again BOOK PLACE, the book in hex".to_string();
    let [book, place] = words else { return Err(usage()) };
    let (book, place) = (from_hex(book).ok_or_else(usage)?, place.parse::<usize>().map_err(|_| usage())?);
    let (_, table) = read(&book);
    for calls in all_calls() {
        each_place(&calls, &[table.clone()], slots, |removal| {
            if removal.place == place {
                judge(removal).map_err(|what| format!("{}: {what}", calls.name))?;
                println!("{}: nothing is hurt", calls.name);
            }
            Ok(())
        })?;
    }
    Ok(())
}
