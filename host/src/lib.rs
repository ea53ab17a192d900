//! The Rust side of the slot planner: an independent scheduler written from the rules (`plain`), an optimised
//! one as a yardstick (`keen`), the proved library behind its C interface (`proved`, when an archive is linked),
//! and what the programs under `bin/` need to compare, watch and time them.
#![deny(unsafe_code)]
#![allow(unexpected_cfgs)]

pub mod aimed;
pub mod answer;
pub mod areas;
pub mod asked;
pub mod call;
pub mod capacity;
pub mod cases;
pub mod damage;
pub mod dice;
pub mod draft;
pub mod generate;
pub mod keen;
pub mod limits;
pub mod memory;
pub mod options;
pub mod plain;
pub mod plain_cases;
pub mod planner;
pub mod program;
#[cfg(proved)]
mod proved;
#[cfg(tables)]
mod proved_tables;
pub mod removal;
pub mod request;
pub mod stack;
pub mod tables;
pub mod tally;
pub mod watch;
