//! The three calls as the radio stack sees them, that of the middleware, those on a table that are timed, and the planners that answer
//! them.

use crate::keen::Keen;
use crate::limits::MAX_FLOWS;
use crate::memory::{Newcomer, TableBytes};
use crate::plain::Plain;

pub trait Planner {
    fn name(&self) -> &'static str;
    fn check(&self, book: &[u8]) -> u32;
    fn start(&self, book: &[u8], area: &mut [u8]) -> u32;
    fn advance(&self, book: &[u8], area: &mut [u8], grants: &mut [u8]) -> u32;
    fn why(&self, book: &[u8], area: &[u8], place: usize) -> u32;

    /// The calls on a table, if it has them.
    fn tables(&self) -> Option<&dyn Tables> {
        None
    }
}

/// Three of the calls on a table, which is handed over and handed back as its bytes.
pub trait Tables {
    /// Refused, a table of zeros is handed back.
    fn read(&self, book: &[u8], table: &mut TableBytes) -> u32;
    /// Refused, the table is handed back as it was.
    fn add(&self, table: &TableBytes, newcomer: &Newcomer, added: &mut TableBytes) -> u32;
    /// Refused, all bounds are 0.
    fn check_table(&self, table: &TableBytes, bounds: &mut [u16; MAX_FLOWS]) -> u32;
}

/// Every planner in this build; the proved one is there when its archives were linked.
pub fn all() -> Vec<&'static dyn Planner> {
    vec![
        &Plain,
        &Keen,
        #[cfg(proved)]
        &crate::proved::Proved,
    ]
}

pub fn named(name: &str) -> Option<&'static dyn Planner> {
    all().into_iter().find(|planner| planner.name() == name)
}

/// The planner under test: the proved one, or `keen` in a build without it.
pub fn under_test() -> &'static dyn Planner {
    named("proved").unwrap_or(&Keen)
}
