//! The figures of the rules, each once.

/// Nodes are numbered from 0, and a row has one bit for each.
pub const MAX_NODES: usize = 64;
pub const MAX_FLOWS: usize = 32;
/// The longest plan, in steps.
pub const MAX_LEN: usize = 32;
pub const MAX_PERIOD: u32 = 60_000;
pub const MAX_PHASE: u32 = 60_000;
/// One past the last slot that runs.
pub const END_OF_SLOTS: u32 = 4_000_000_000;

pub const ROW_BYTES: usize = 8;
pub const RECORD_BYTES: usize = 10;
pub const STEP_BYTES: usize = 2;
pub const TRAILER_BYTES: usize = 10;
/// The two bytes that end every book.
pub const MARK: [u8; 2] = *b"FB";

/// The slot at the front of the run area.
pub const SLOT_BYTES: usize = 4;
pub const AREA_BYTES: usize = SLOT_BYTES + MAX_FLOWS;
pub const GRANT_BYTES: usize = 9;
