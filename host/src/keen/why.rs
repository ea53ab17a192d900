//! Why a flow is silent in the slot about to run.

use super::book::{bit, Book};
use crate::answer::*;
use crate::limits::*;

impl Book<'_> {
    /// The slot is run on a copy of the area, for codes 10, 12 and 11 and for its grants. Then 15, and what is told by the grants.
    pub fn why(&self, area: &[u8; AREA_BYTES], place: usize) -> u32 {
        let (mut after, mut grants) = (*area, [0; GRANT_BYTES * MAX_FLOWS]);
        let ran = self.run(&mut after, &mut grants);
        if code_of(ran) != DONE {
            return ran;
        }
        if place >= self.flows() {
            return packed(BAD_PLACE, 0);
        }

        let goes = |i: usize| {
            let id = &self.records[RECORD_BYTES * i..][..2];
            grants.chunks_exact(GRANT_BYTES).take(number_of(ran)).any(|grant| &grant[..2] == id)
        };
        let step = |i: usize| {
            let done = usize::from(after[SLOT_BYTES + i]) - usize::from(goes(i));
            self.plans().nth(i)?.get(STEP_BYTES * done..STEP_BYTES * (done + 1))
        };
        let slot = area[..SLOT_BYTES].iter().fold(0, |high, &byte| high << 8 | u32::from(byte));
        if slot < self.record(place).phase {
            return packed(DONE, told(NOT_RELEASED, 0));
        }
        let Some(own) = step(place) else {
            return packed(DONE, told(FINISHED, 0));
        };
        if goes(place) {
            return packed(DONE, told(GRANTED, 0));
        }
        let blocks = |&h: &usize| goes(h) && step(h).is_some_and(|other| self.conflict(other, own));
        packed(DONE, told(WAITING, (0..place).find(blocks).unwrap_or(place)))
    }

    /// Whether two steps conflict: they share a node, or a node of one disturbs the other's node that listens while it talks.
    fn conflict(&self, one: &[u8], other: &[u8]) -> bool {
        let (nodes, others) = (bit(one[0]) | bit(one[1]), bit(other[0]) | bit(other[1]));
        let heard = |talking: u8, listening: u8| self.row(talking) & bit(listening);
        let data = heard(one[0], other[1]) | heard(other[0], one[1]);
        let answers = heard(one[1], other[0]) | heard(other[1], one[0]);
        (nodes & others) | data | answers != 0
    }
}
