//! What a call answers: code × 65,536 plus the number that goes with the code.

pub const DONE: u32 = 0;
pub const SHORT_SLICE: u32 = 1;
pub const NO_MARK: u32 = 2;
pub const BAD_COUNT: u32 = 3;
pub const BAD_DISTANCE: u32 = 4;
pub const BAD_ROW: u32 = 5;
pub const BAD_RECORD: u32 = 6;
pub const BAD_LENGTHS: u32 = 7;
pub const BAD_STEP: u32 = 8;
pub const NO_BOUND: u32 = 9;
pub const BAD_AREA: u32 = 10;
pub const UNFINISHED: u32 = 11;
pub const END_REACHED: u32 = 12;
pub const SHORT_MEMORY: u32 = 13;
pub const TABLE_FULL: u32 = 14;
pub const BAD_PLACE: u32 = 15;
pub const BAD_FIGURE: u32 = 17;

/// One more than the highest code.
pub const CODES: usize = 18;

/// What is told of a flow in the slot about to run.
pub const NOT_RELEASED: usize = 0;
pub const FINISHED: usize = 1;
pub const GRANTED: usize = 2;
pub const WAITING: usize = 3;

const CODE_UNIT: u32 = 65_536;
const KIND_UNIT: usize = 256;

pub const fn packed(code: u32, number: usize) -> u32 {
    code * CODE_UNIT + number as u32
}

pub const fn code_of(answer: u32) -> u32 {
    answer / CODE_UNIT
}

pub const fn number_of(answer: u32) -> usize {
    (answer % CODE_UNIT) as usize
}

/// What is told of a flow, as a number; of a flow that waits, with the place that it waits on.
pub const fn told(kind: usize, place: usize) -> usize {
    KIND_UNIT * kind + place
}

pub const fn kind_of(answer: u32) -> usize {
    number_of(answer) / KIND_UNIT
}
