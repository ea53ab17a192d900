//! The cases of the rules on every planner of this build, and those of `plain` alone.

use slot_host::{cases::CASES, plain_cases::PLAIN_CASES, planner};
use std::process::ExitCode;

fn main() -> ExitCode {
    let mut failed = 0;
    let mut tell = |planner: &str, case: &str, outcome: Result<(), String>| match outcome {
        Ok(()) => println!("{planner}: case {case}: ok"),
        Err(what) => {
            println!("{planner}: case {case}: FAILED, {what}");
            failed += 1;
        }
    };
    for planner in planner::all() {
        CASES.iter().for_each(|(name, case)| tell(planner.name(), name, case(planner)));
    }
    PLAIN_CASES.iter().for_each(|(name, case)| tell("plain", name, case()));
    println!("{failed} cases failed");
    ExitCode::from(u8::from(failed > 0))
}
