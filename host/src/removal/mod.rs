//! Taking a flow out never hurts: of an accepted table and each of its places, remove is done and what is left is accepted; no bound has
//! risen; and the flows above the place have the same grants. It is judged by what the calls say of the table and of what is left.

pub mod chain;
pub mod claim;
pub mod look;
pub mod met;
pub mod spoiled;
pub mod tables;

use crate::memory::Table;
use crate::plain::Plain;
use crate::planner::{self, Planner};
use crate::program;
use crate::request::{Reply, Request};
use look::{looks, Look};

pub type Advance = fn(&dyn Planner, &[u8], &mut [u8], &mut [u8]) -> u32;

/// Who answers the calls on a table, and check with its bounds.
#[derive(Clone, Copy)]
pub enum Replies {
    /// The proved program, asked many requests at a time.
    Program,
    Each(fn(&Request) -> Reply),
}

/// Who answers, there and in a run.
#[derive(Clone, Copy)]
pub struct Calls {
    pub name: &'static str,
    pub replies: Replies,
    pub planner: &'static dyn Planner,
    pub advance: Advance,
}

pub const PLAIN: Calls = Calls {
    name: "plain",
    replies: Replies::Each(Request::reply_of_plain),
    planner: &Plain,
    advance: |planner, book, area, grants| planner.advance(book, area, grants),
};

/// The proved program and the archive, in a build that has it.
pub fn proved() -> Option<Calls> {
    let planner = planner::named("proved")?;
    Some(Calls { name: planner.name(), replies: Replies::Program, planner, ..PLAIN })
}

impl Calls {
    fn ask(&self, requests: &[Request]) -> Result<Vec<Reply>, String> {
        match self.replies {
            Replies::Each(reply) => Ok(requests.iter().map(reply).collect()),
            Replies::Program => {
                let input: Vec<u8> = requests.iter().flat_map(Request::bytes).collect();
                program::run(&input, |answers| {
                    let next = |request: &Request| request.reply_from(answers).map_err(|what| what.to_string());
                    requests.iter().map(next).collect()
                })
            }
        }
    }
}

/// A flow taken out of a table: its place, what remove answered, and what the calls say of the table and of the one that remove returned.
pub struct Removal<'a> {
    pub table: &'a Table,
    pub place: usize,
    pub before: &'a Look,
    pub answer: u32,
    pub after: &'a Look,
}

/// Takes the flow at each place out of each of these tables, and shows every removal, with so many slots of its two runs, to `judge`.
pub fn each_place(
    calls: &Calls,
    tables: &[Table],
    slots: usize,
    mut judge: impl FnMut(&Removal) -> Result<(), String>,
) -> Result<(), String> {
    let before = looks(calls, tables, slots)?;
    let places: Vec<(usize, usize)> =
        (0..tables.len()).flat_map(|t| (0..before[t].ids.len()).map(move |place| (t, place))).collect();
    let remove = |&(t, place): &(usize, usize)| Request::Remove { table: tables[t].clone(), place: place as u64 };
    let removed = calls.ask(&places.iter().map(remove).collect::<Vec<_>>())?;
    let left: Vec<Table> = removed.iter().map(|reply| look::table_in(&reply.memory)).collect();
    let after = looks(calls, &left, slots)?;
    for (k, &(t, place)) in places.iter().enumerate() {
        let (table, before, answer, after) = (&tables[t], &before[t], removed[k].answer(), &after[k]);
        judge(&Removal { table, place, before, answer, after })?;
    }
    Ok(())
}
