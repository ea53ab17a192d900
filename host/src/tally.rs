//! How often each call answered each of its codes and, where a call has several reasons for a code, for which of them.

use crate::answer::CODES;

/// What a call can answer: its codes in the order of their tests, and what the reasons are where it has several for a code.
#[derive(Clone, Copy)]
pub struct Answers {
    pub call: &'static str,
    pub codes: &'static [u32],
    pub reasons: &'static [(u32, &'static [&'static str])],
}

/// No code has more reasons.
const MOST_REASONS: usize = 4;

/// How often a call answered each code, for each of its reasons.
struct Row {
    answers: Answers,
    counts: [[u64; MOST_REASONS]; CODES],
}

pub struct Tally {
    rows: Vec<Row>,
}

impl Tally {
    pub fn new(calls: impl IntoIterator<Item = Answers>) -> Tally {
        Tally { rows: calls.into_iter().map(|answers| Row { answers, counts: [[0; MOST_REASONS]; CODES] }).collect() }
    }

    /// One more answer of a call, for the reason at a place among those of its code; 0 where there is but one.
    pub fn count(&mut self, call: &str, code: u32, reason: usize) {
        let row = self.rows.iter_mut().find(|row| row.answers.call == call).expect("a call of the list");
        row.counts[code as usize][reason] += 1;
    }

    pub fn total(&self) -> u64 {
        self.rows.iter().map(Row::total).sum()
    }

    /// Prints a line for each call. Every code of every call must have been met, for each of its reasons.
    pub fn close(&self) -> Result<(), String> {
        let mut missing = Vec::new();
        for row in &self.rows {
            let (call, met) = (row.answers.call, row.met());
            let told: Vec<String> = met.iter().map(|(what, count)| format!("{what}: {count}")).collect();
            println!("  {call:16} {} calls; by code {}", row.total(), told.join(", "));
            missing.extend(met.iter().filter(|(_, count)| *count == 0).map(|(what, _)| format!("{call} {what}")));
        }
        if missing.is_empty() {
            Ok(())
        } else {
            Err(format!("codes that were never met: {}", missing.join(", ")))
        }
    }
}

impl Row {
    fn total(&self) -> u64 {
        self.counts.iter().flatten().sum()
    }

    /// Each code, or each reason of a code that has several, in words, and how often it was met.
    fn met(&self) -> Vec<(String, u64)> {
        let mut met = Vec::new();
        for &code in self.answers.codes {
            let counts = self.counts[code as usize];
            match self.answers.reasons.iter().find(|(of, _)| *of == code) {
                None => met.push((code.to_string(), counts[0])),
                Some((_, reasons)) => {
                    met.extend(reasons.iter().zip(counts).map(|(reason, count)| (format!("{code} ({reason})"), count)))
                }
            }
        }
        met
    }
}
