//! Times the three calls of the planner under test, and those on a table, against `keen`, on the same input in the same run, and
//! measures the stack that the three take. Prints a table of each in Markdown.
//!
//!     bench [--rounds N] [--millis N]
//!     bench rows                           the rows of the first table: book, its name and the call, a tab in between
//!     bench calls BOOK CALL PLANNER N      makes so many calls of one row, for `host/count.sh` to count their instructions
//!     bench capacity [--tables N] [--phasings N] [--seed S]
//!                                          how many flows come in, of those that want to; so many tables for each row, and a run from
//!                                          so many phasings

use slot_host::answer::{packed, DONE};
use slot_host::capacity::{Counts, Load};
use slot_host::dice::Dice;
use slot_host::draft::{book_a, book_b, Draft};
use slot_host::generate::regular;
use slot_host::limits::*;
use slot_host::memory::{Newcomer, TableBytes, TABLE_BYTES};
use slot_host::options::Options;
use slot_host::planner::{self, Planner, Tables};
use slot_host::stack::taken;
use slot_host::tables::places;
use std::hint::black_box;
use std::time::{Duration, Instant};

const ROUNDS: u64 = 101;
/// How long one planner is timed in one round: so short that whatever else the machine does falls on both alike.
const MILLIS: u64 = 1;
/// How many slots are run before the run starts again.
const LAP: usize = 2_048;
/// How many tables are drawn for each row of the capacity.
const TABLES: u64 = 1_000;

fn main() {
    let mut options = Options::from_args();
    if options.word("rows") {
        options.finish();
        return print_rows();
    }
    if options.word("calls") {
        return make_calls(options.rest());
    }
    if options.word("capacity") {
        return print_capacity(options);
    }
    let rounds = options.number("--rounds", ROUNDS) as usize;
    let time = Duration::from_millis(options.number("--millis", MILLIS));
    options.finish();

    let bench = Bench { keen: keen(), other: opponent(), rounds, time };
    match std::env::var("SLOT_EMULATOR") {
        Ok(emulator) if !emulator.is_empty() => println!("Through an emulator ({emulator}): only the ratios count.\n"),
        _ => println!("No emulator in between.\n"),
    }
    println!("| book | call | keen, calls/s | {0}, calls/s | {0} / keen |", bench.other.name());
    println!("|---|---|---:|---:|---:|");
    for (name, draft) in books() {
        visit(&draft, &mut |call, work| bench.line(&name, call, work));
    }

    println!("\n| stack on the fullest book | keen, bytes | {}, bytes |", bench.other.name());
    println!("|---|---:|---:|");
    let run = Run::new(bench.keen, &fullest());
    let [ours, theirs] = [bench.keen, bench.other].map(|planner| run.stack(planner));
    for (k, call) in ["check", "start", "advance"].into_iter().enumerate() {
        println!("| {call} | {} | {} |", ours[k], theirs[k]);
    }
}

fn print_rows() {
    for (book, (name, draft)) in books().iter().enumerate() {
        visit(draft, &mut |call, _| println!("{book}\t{name}\t{call}"));
    }
}

fn make_calls(words: &[String]) {
    let [book, wanted, planner, calls] = words else { panic!("bench calls BOOK CALL PLANNER N") };
    let book: usize = book.parse().expect("the number of a book");
    let calls = calls.parse().expect("a number of calls");
    let planner = planner::named(planner).expect("a planner of this build");
    visit(&books()[book].1, &mut |call, work| {
        if call == wanted {
            work(planner, calls);
        }
    });
}

fn print_capacity(mut options: Options) {
    let (tables, phasings) = (options.number("--tables", TABLES), options.number("--phasings", 1));
    let seed = options.number("--seed", 1);
    options.finish();
    println!("{tables} tables for each row, phasings of each run: {phasings}, seed {seed}\n");
    println!(
        "| periods | deadlines | flows that come | by the deadline count | by the bounds | by a run | \
         tables with more by the bounds | with fewer |"
    );
    println!("|---|---|---:|---:|---:|---:|---:|---:|");
    let mut all = Counts::default();
    for (deadlines, short_deadlines) in [("P", false), ("P / 2 to P", true)] {
        for stretch in 1..=3 {
            let (dice, load) = (&mut Dice::new(seed), Load { stretch, short_deadlines });
            let mut row = Counts::default();
            (0..tables).for_each(|_| row.add(&Counts::of_a_table(dice, load, phasings)));
            print_counts(&format!("times {stretch} | {deadlines}"), &row);
            all.add(&row);
        }
    }
    print_counts("all | all", &all);
}

fn print_counts(what: &str, counts: &Counts) {
    let share = |flows: usize| format!("{flows} ({:.1} %)", 100.0 * flows as f64 / counts.came as f64);
    let [before, now, run] = [counts.by_deadline, counts.by_bounds, counts.by_run].map(share);
    println!("| {what} | {} | {before} | {now} | {run} | {} | {} |", counts.came, counts.more, counts.fewer);
}

fn keen() -> &'static dyn Planner {
    planner::named("keen").expect("always built")
}

/// The proved library, or `plain` in a build without it.
fn opponent() -> &'static dyn Planner {
    planner::named("proved").unwrap_or(&slot_host::plain::Plain)
}

fn fullest() -> Draft {
    regular(64, MAX_NODES, MAX_FLOWS, MAX_LEN)
}

fn books() -> Vec<(String, Draft)> {
    let mut books = vec![
        ("A".to_string(), book_a()),
        ("B".to_string(), book_b()),
        ("middle: 20 nodes, 10 flows, 8 steps".to_string(), regular(20, 20, 10, 8)),
        ("fullest: 64 nodes, 32 flows, 32 steps".to_string(), fullest()),
    ];
    for flows in [0, 1, 2, 4, 8, 16, 32] {
        books.push((format!("32 nodes, {flows} flows, 8 steps"), regular(1, 32, flows, 8)));
    }
    for len in [1, 2, 4, 8, 16, 32] {
        books.push((format!("32 nodes, 8 flows, {len} steps"), regular(2, 32, 8, len)));
    }
    books
}

/// What is timed: so many calls.
type Work<'a> = &'a dyn Fn(&dyn Planner, usize);

/// The two planners, how often each is timed, and for how long.
struct Bench {
    keen: &'static dyn Planner,
    other: &'static dyn Planner,
    rounds: usize,
    time: Duration,
}

impl Bench {
    fn line(&self, book: &str, call: &str, work: Work) {
        let (ours, theirs, ratio) = self.measure(work);
        println!("| {book} | {call} | {ours:.0} | {theirs:.0} | {ratio:.2} |");
    }

    /// Calls per second of both, timed in turn, and the ratio of the two in the same round. Each is the median of the
    /// rounds, so the ratio is not the quotient of the other two.
    fn measure(&self, work: Work) -> (f64, f64, f64) {
        let (keen_calls, other_calls) = (self.calls_in_time(self.keen, work), self.calls_in_time(self.other, work));
        let mut rates = Vec::new();
        for _ in 0..self.rounds {
            let ours = keen_calls as f64 / seconds(self.keen, work, keen_calls);
            let theirs = other_calls as f64 / seconds(self.other, work, other_calls);
            rates.push((ours, theirs, theirs / ours));
        }
        let median_of = |part: fn(&(f64, f64, f64)) -> f64| median(rates.iter().map(part).collect());
        (median_of(|rate| rate.0), median_of(|rate| rate.1), median_of(|rate| rate.2))
    }

    /// How many calls fill the time, at least one.
    fn calls_in_time(&self, planner: &dyn Planner, work: Work) -> usize {
        let mut calls = 1;
        loop {
            let spent = seconds(planner, work, calls);
            if spent * 4.0 > self.time.as_secs_f64() {
                return ((calls as f64 * self.time.as_secs_f64() / spent) as usize).max(1);
            }
            calls *= 2;
        }
    }
}

/// Each call on a book, and those on its table if both planners have them.
fn visit(draft: &Draft, row: &mut dyn FnMut(&str, Work)) {
    let run = Run::new(keen(), draft);
    row("check", &|planner, calls| run.check(planner, calls));
    row("start", &|planner, calls| run.start(planner, calls));
    row("advance", &|planner, calls| run.advance(planner, calls));
    let (Some(tables), Some(_)) = (keen().tables(), opponent().tables()) else {
        return;
    };
    row("read", &|planner, calls| read(&run.book, of(planner), calls));
    let table = read_by(tables, draft);
    row("check of a table", &|planner, calls| check_table(&table, of(planner), calls));
    for (call, place) in places_to_add(draft) {
        let change = Change::new(tables, draft, place);
        row(call, &|planner, calls| change.add(of(planner), calls));
    }
}

fn seconds(planner: &dyn Planner, work: Work, calls: usize) -> f64 {
    let begin = Instant::now();
    work(planner, calls);
    begin.elapsed().as_secs_f64()
}

fn median(mut figures: Vec<f64>) -> f64 {
    figures.sort_by(f64::total_cmp);
    figures[figures.len() / 2]
}

/// A book, and the run area at its start.
struct Run {
    book: Vec<u8>,
    first: [u8; AREA_BYTES],
    flows: usize,
}

impl Run {
    fn new(planner: &dyn Planner, draft: &Draft) -> Run {
        let mut run = Run { book: draft.bytes(), first: [0; AREA_BYTES], flows: draft.flows.len() };
        assert_eq!(planner.start(&run.book, &mut run.first), packed(DONE, 0), "the book is accepted");
        run
    }

    fn check(&self, planner: &dyn Planner, calls: usize) {
        for _ in 0..calls {
            black_box(planner.check(black_box(&self.book)));
        }
    }

    fn start(&self, planner: &dyn Planner, calls: usize) {
        let mut area = self.first;
        for _ in 0..calls {
            black_box(planner.start(black_box(&self.book), black_box(&mut area)));
        }
    }

    /// A run that moves, from its start again after every lap.
    fn advance(&self, planner: &dyn Planner, calls: usize) {
        let mut area = self.first;
        let mut grants = vec![0; GRANT_BYTES * self.flows];
        for call in 0..calls {
            if call % LAP == 0 {
                area = self.first;
            }
            black_box(planner.advance(black_box(&self.book), black_box(&mut area), black_box(&mut grants)));
        }
    }

    /// The stack that check, start and advance take; of advance, the most over the slots of a lap.
    fn stack(&self, planner: &dyn Planner) -> [usize; 3] {
        // What the compiler does not know it does not inline: the call has a frame of its own.
        let planner = black_box(planner);
        let mut area = self.first;
        let mut grants = vec![0; GRANT_BYTES * self.flows];
        let check = taken(|| _ = black_box(planner.check(&self.book)));
        let start = taken(|| _ = black_box(planner.start(&self.book, &mut area)));
        let mut slot = || taken(|| _ = black_box(planner.advance(&self.book, &mut area, &mut grants)));
        let advance = (0..LAP).map(|_| slot()).fold(0, usize::max);
        [check, start, advance]
    }
}

fn of(planner: &dyn Planner) -> &dyn Tables {
    planner.tables().expect("looked for before")
}

/// The table of a book, by a planner that reads it.
fn read_by(tables: &dyn Tables, draft: &Draft) -> TableBytes {
    let mut table = [0; TABLE_BYTES];
    assert_eq!(tables.read(&draft.bytes(), &mut table), packed(DONE, 0), "the book is valid");
    table
}

fn read(book: &[u8], tables: &dyn Tables, calls: usize) {
    let mut table = [0; TABLE_BYTES];
    for _ in 0..calls {
        black_box(tables.read(black_box(book), black_box(&mut table)));
    }
}

fn check_table(table: &TableBytes, tables: &dyn Tables, calls: usize) {
    let mut bounds = [0; MAX_FLOWS];
    for _ in 0..calls {
        black_box(tables.check_table(black_box(table), black_box(&mut bounds)));
    }
}

/// Where a flow of the book is taken out, to be added again: at the end and, if that is another place, in the middle.
fn places_to_add(draft: &Draft) -> Vec<(&'static str, usize)> {
    match draft.flows.len() {
        0 => vec![],
        1 => vec![("add at the end", 0)],
        flows => vec![("add at the end", flows - 1), ("add in the middle", (flows - 1) / 2)],
    }
}

/// A table that has lost a flow of its book, and the flow.
struct Change {
    table: TableBytes,
    newcomer: Newcomer,
}

impl Change {
    fn new(tables: &dyn Tables, draft: &Draft, place: usize) -> Change {
        let mut rest = draft.clone();
        let flow = rest.flows.remove(place);
        let newcomer = Newcomer { place, record: flow.record().bytes(), plan: places(&flow.plan) };
        let (change, mut added) = (Change { table: read_by(tables, &rest), newcomer }, [0; TABLE_BYTES]);
        let answer = tables.add(&change.table, &change.newcomer, &mut added);
        assert_eq!((answer, added), (packed(DONE, 0), read_by(tables, draft)), "it can be added again");
        change
    }

    fn add(&self, tables: &dyn Tables, calls: usize) {
        let mut added = [0; TABLE_BYTES];
        for _ in 0..calls {
            black_box(tables.add(black_box(&self.table), black_box(&self.newcomer), black_box(&mut added)));
        }
    }
}
