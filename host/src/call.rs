//! One call with the memory it is lent, made on any planner, and what came of it.

use crate::answer::*;
use crate::limits::*;
use crate::plain::run::slot_of;
use crate::planner::Planner;
use crate::tally::Answers;
use std::fmt;

const SLOT_OR_PLACE: &[&str] = &["slot", "place"];
const ALONE_OR_AHEAD: &[&str] = &["alone", "ahead of 15"];

#[derive(Clone, Copy, Debug, PartialEq, Eq)]
pub enum Kind {
    Check,
    Start,
    Advance,
    Why,
}

impl Kind {
    pub const ALL: [Kind; 4] = [Kind::Check, Kind::Start, Kind::Advance, Kind::Why];

    pub fn name(self) -> &'static str {
        self.answers().call
    }

    pub const fn answers(self) -> Answers {
        match self {
            Kind::Check => Answers { call: "check", codes: &[DONE, 1, 2, 3, 4, 5, 6, 7, 8, NO_BOUND], reasons: &[] },
            Kind::Start => {
                Answers { call: "start", codes: &[DONE, 1, 2, 3, 4, 5, 6, 7, 8, NO_BOUND, SHORT_MEMORY], reasons: &[] }
            }
            Kind::Advance => Answers {
                call: "advance",
                codes: &[DONE, 1, 2, 3, 4, 5, 6, 7, 8, SHORT_MEMORY, BAD_AREA, END_REACHED, UNFINISHED],
                reasons: &[(SHORT_MEMORY, &["area", "grants"]), (BAD_AREA, SLOT_OR_PLACE)],
            },
            Kind::Why => Answers {
                call: "why",
                codes: &[DONE, 1, 2, 3, 4, 5, 6, 7, 8, SHORT_MEMORY, BAD_AREA, END_REACHED, UNFINISHED, BAD_PLACE],
                reasons: &[
                    (DONE, &["not released", "finished", "granted", "waiting"]),
                    (SHORT_MEMORY, ALONE_OR_AHEAD),
                    (BAD_AREA, SLOT_OR_PLACE),
                    (END_REACHED, ALONE_OR_AHEAD),
                    (UNFINISHED, ALONE_OR_AHEAD),
                ],
            },
        }
    }
}

/// A call and what it is handed. Check takes only the book, start the book and the area, and why both and the place.
#[derive(Clone, Copy)]
pub struct Call<'a> {
    pub kind: Kind,
    pub book: &'a [u8],
    pub area: &'a [u8],
    pub grants: &'a [u8],
    pub place: usize,
}

/// The answer, and the lent memory afterwards, whole.
#[derive(Clone, Debug, PartialEq, Eq)]
pub struct Outcome {
    pub answer: u32,
    pub area: Vec<u8>,
    pub grants: Vec<u8>,
    /// Whether the bytes next to the lent memory, and what the call may only read, are what they were.
    pub kept_out: bool,
}

impl<'a> Call<'a> {
    pub fn check(book: &'a [u8]) -> Call<'a> {
        Call { kind: Kind::Check, book, area: &[], grants: &[], place: 0 }
    }

    pub fn start(book: &'a [u8], area: &'a [u8]) -> Call<'a> {
        Call { kind: Kind::Start, book, area, grants: &[], place: 0 }
    }

    pub fn advance(book: &'a [u8], area: &'a [u8], grants: &'a [u8]) -> Call<'a> {
        Call { kind: Kind::Advance, book, area, grants, place: 0 }
    }

    pub fn why(book: &'a [u8], area: &'a [u8], place: usize) -> Call<'a> {
        Call { kind: Kind::Why, book, area, grants: &[], place }
    }

    /// Which of the reasons for the code of an answer holds, by what is handed in or, of why, by what is told; 0 where the code has but
    /// one. The area is tested ahead of the grants and of the place that is asked about, and its slot ahead of its places.
    pub fn reason(&self, answer: u32) -> usize {
        match (self.kind, code_of(answer)) {
            (Kind::Why, DONE) => kind_of(answer),
            (Kind::Why, SHORT_MEMORY | END_REACHED | UNFINISHED) => usize::from(self.place >= MAX_FLOWS),
            (Kind::Advance, SHORT_MEMORY) => usize::from(self.area.len() >= AREA_BYTES),
            (Kind::Advance | Kind::Why, BAD_AREA) => usize::from(slot_of(self.area) <= u64::from(END_OF_SLOTS)),
            _ => 0,
        }
    }

    /// Makes the call on copies of the memory, each between two margins.
    pub fn make(&self, planner: &dyn Planner) -> Outcome {
        let (mut area, mut grants) = (Lent::new(self.area), Lent::new(self.grants));
        let book = self.book.to_vec();
        let answer = match self.kind {
            Kind::Check => planner.check(&book),
            Kind::Start => planner.start(&book, area.part()),
            Kind::Advance => planner.advance(&book, area.part(), grants.part()),
            Kind::Why => planner.why(&book, area.part(), self.place),
        };
        let only_read = book == self.book && (self.kind != Kind::Why || area.part() == self.area);
        let kept_out = only_read && area.margins_kept() && grants.margins_kept();
        Outcome { answer, area: area.part().to_vec(), grants: grants.part().to_vec(), kept_out }
    }
}

/// The call as words that `compare again` takes back.
impl fmt::Display for Call<'_> {
    fn fmt(&self, out: &mut fmt::Formatter) -> fmt::Result {
        let [book, area, grants] = [self.book, self.area, self.grants].map(hex);
        write!(out, "{} {book} {area} {grants} {}", self.kind.name(), self.place)
    }
}

impl fmt::Display for Outcome {
    fn fmt(&self, out: &mut fmt::Formatter) -> fmt::Result {
        let (code, number) = (code_of(self.answer), number_of(self.answer));
        let note = if self.kept_out { "" } else { ", wrote outside of what it was lent" };
        write!(out, "code {code} number {number}, area {}, grants {}{note}", hex(&self.area), hex(&self.grants))
    }
}

/// Memory with a margin of known bytes on both sides.
struct Lent {
    bytes: Vec<u8>,
}

const MARGIN: [u8; 16] = [0xA5; 16];

impl Lent {
    fn new(content: &[u8]) -> Lent {
        Lent { bytes: [&MARGIN, content, &MARGIN].concat() }
    }

    fn part(&mut self) -> &mut [u8] {
        let end = self.bytes.len() - MARGIN.len();
        &mut self.bytes[MARGIN.len()..end]
    }

    fn margins_kept(&self) -> bool {
        self.bytes.starts_with(&MARGIN) && self.bytes.ends_with(&MARGIN)
    }
}

/// Two digits a byte; `-` for no bytes.
pub fn hex(bytes: &[u8]) -> String {
    if bytes.is_empty() {
        return "-".to_string();
    }
    bytes.iter().map(|byte| format!("{byte:02x}")).collect()
}

pub fn from_hex(text: &str) -> Option<Vec<u8>> {
    if text == "-" {
        return Some(Vec::new());
    }
    let pairs = (0..text.len()).step_by(2);
    pairs.map(|at| u8::from_str_radix(text.get(at..at + 2)?, 16).ok()).collect()
}
