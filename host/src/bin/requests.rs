//! Asks the proved program `requests` and `plain` to read, write, add, remove and check the same, and compares all they answer, the
//! bounds among it.
//!
//!     requests [--calls N] [--seed S]
//!     requests --of PLANNER ..    the same of a planner in the program's place, as far as it has the calls
//!     requests again HEX          one request, from the words of a mismatch
//!     requests store FOLDER       the input and the output that are kept beside the source of the proved program

use slot_host::answer::{code_of, number_of};
use slot_host::asked::{self, Asked};
use slot_host::call::{from_hex, hex};
use slot_host::dice::Dice;
use slot_host::draft::book_a;
use slot_host::generate::{accepted, newcomer, of_round};
use slot_host::options::Options;
use slot_host::planner;
use slot_host::program;
use slot_host::request::{Reply, Request, CALLS, OF_A_PLANNER};
use slot_host::tables::{littered, places};
use slot_host::tally::Tally;
use std::io::Read;
use std::process::ExitCode;

const REQUESTS: u64 = 45_000;

fn main() -> ExitCode {
    let mut options = Options::from_args();
    let outcome = if options.word("again") {
        again(options.rest())
    } else if options.word("store") {
        store(options.rest())
    } else {
        let (requests, seed) = (options.number("--calls", REQUESTS), options.number("--seed", 1));
        let of = options.name("--of");
        options.finish();
        println!("{} against plain, seed {seed}", of.as_deref().unwrap_or("the proved program"));
        match of {
            None => compare(requests, seed),
            Some(name) => compare_planner(&name, requests, seed),
        }
    };
    match outcome {
        Ok(()) => ExitCode::SUCCESS,
        Err(what) => {
            println!("{what}");
            ExitCode::FAILURE
        }
    }
}

fn compare(requests: u64, seed: u64) -> Result<(), String> {
    rounds(Tally::new(CALLS), requests, seed, |tally, dice, all| {
        ask(tally, all)?;
        let some = dice.below(all.len());
        endings(dice, &all[some].request)
    })
}

/// The same with a planner of this build, as far as it has the calls.
fn compare_planner(name: &str, requests: u64, seed: u64) -> Result<(), String> {
    let planner = planner::named(name).ok_or("no such planner in this build")?;
    let tables = planner.tables().ok_or("it has no calls on a table")?;
    rounds(Tally::new(OF_A_PLANNER.map(|call| CALLS[call])), requests, seed, |tally, _, all| {
        all.iter().try_for_each(|asked| match asked.request.reply_of(tables) {
            Some(ours) => judge(tally, asked, &ours),
            None => Ok(()),
        })
    })
}

/// As many rounds as so many requests take, each given to `ask` with the dice.
fn rounds(
    mut tally: Tally,
    requests: u64,
    seed: u64,
    ask: impl Fn(&mut Tally, &mut Dice, &[Asked]) -> Result<(), String>,
) -> Result<(), String> {
    let dice = &mut Dice::new(seed);
    let mut round = 0;
    while tally.total() < requests {
        let (shape, draft) = of_round(dice, round);
        let mut all = asked::around(dice, &draft);
        all.extend(asked::bounded(dice, shape));
        all.extend(asked::by_deadline(dice, shape));
        if round % 8 == 3 {
            let draft = accepted(dice, shape);
            all.extend(asked::aimed(dice, &draft));
        }
        ask(&mut tally, dice, &all).map_err(|what| format!("round {round}: {what}"))?;
        round += 1;
    }
    tally.close()?;
    println!("{} requests in {round} rounds, all alike; every code met, for each of its reasons", tally.total());
    Ok(())
}

/// One run of the program over all of these requests.
fn ask(tally: &mut Tally, all: &[Asked]) -> Result<(), String> {
    let input: Vec<u8> = all.iter().flat_map(|asked| asked.request.bytes()).collect();
    program::run(&input, |answers| all.iter().try_for_each(|asked| judge(tally, asked, &next(asked, answers)?)))
}

fn next(asked: &Asked, answers: &mut impl Read) -> Result<Reply, String> {
    asked.request.reply_from(answers).map_err(|what| format!("NO ANSWER: {what}{}", again_with(&asked.request)))
}

fn again_with(request: &Request) -> String {
    format!("\n  to repeat: requests again {}", hex(&request.bytes()))
}

/// The answer has to be that of `plain`, and the one that was aimed at.
fn judge(tally: &mut Tally, asked: &Asked, ours: &Reply) -> Result<(), String> {
    let request = &asked.request;
    let (call, again) = (CALLS[request.call()].call, || again_with(request));
    if let Some(what) = ours.unlike(&request.reply_of_plain()) {
        return Err(format!("MISMATCH in {call}, with plain: {what}{}", again()));
    }
    if let Some(wanted) = asked.wanted {
        let (code, number) = (code_of(wanted), number_of(wanted));
        if (ours.code, ours.number) != (code, number as u64) {
            return Err(format!("WRONG ANSWER, both, {ours} where {code} {number} was aimed at{}", again()));
        }
    }
    tally.count(call, ours.code, request.reason(ours.code));
    Ok(())
}

/// A request that is cut short, and a call that there is not, end the program without an answer.
fn endings(dice: &mut Dice, request: &Request) -> Result<(), String> {
    let whole = request.bytes();
    let cut = dice.below(whole.len());
    let no_call = dice.pick(&[0, CALLS.len() as u8 + 1, u8::MAX]);
    for end in [whole[..cut].to_vec(), [&[no_call], &whole[..]].concat()] {
        let input = [&whole[..], &end].concat();
        program::run(&input, |answers| request.reply_from(answers).map_err(|what| what.to_string()))
            .map_err(|what| format!("ENDING: {what}\n  the input was {}", hex(&input)))?;
    }
    Ok(())
}

fn again(words: &[String]) -> Result<(), String> {
    let usage = || "requests again HEX".to_string();
    let [text] = words else { return Err(usage()) };
    let bytes = from_hex(text).ok_or_else(usage)?;
    let request = Request::from_bytes(&mut &bytes[..]).map_err(|_| usage())?;
    let told = |who: &str, reply: &Reply| println!("{who}: {reply}, {}", hex(&reply.memory));
    let theirs = request.reply_of_plain();
    told("plain", &theirs);
    let ours = program::run(&bytes, |answers| request.reply_from(answers).map_err(|what| what.to_string()))?;
    told("proved", &ours);
    ours.unlike(&theirs).map_or(Ok(()), Err)
}

/// Each call once on book A or its table, and the answers of `plain`.
fn store(words: &[String]) -> Result<(), String> {
    let [folder] = words else { return Err("requests store FOLDER".to_string()) };
    let (dice, draft) = (&mut Dice::new(1), book_a());
    let (slice, table, flow) = (draft.bytes(), littered(dice, &draft), newcomer(dice, &draft));
    let requests = [
        Request::Write { table: table.clone(), buffer: dice.bytes(slice.len() + 1) },
        Request::Add { table: table.clone(), place: 1, record: flow.record(), plan: places(&flow.plan) },
        Request::Remove { table: table.clone(), place: 1 },
        Request::Read { slice: slice.clone() },
        Request::Check { slice },
        Request::CheckTable { table },
    ];
    let input: Vec<u8> = requests.iter().flat_map(Request::bytes).collect();
    let output: Vec<u8> = requests.iter().flat_map(|request| request.reply_of_plain().bytes()).collect();
    let keep = |name: &str, bytes: Vec<u8>| std::fs::write(format!("{folder}/{name}"), bytes);
    keep("stdin", input).and_then(|()| keep("stdout", output)).map_err(|what| what.to_string())
}
