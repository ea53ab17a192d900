//! One slot.

use super::book::{bit, Book, Record};
use crate::answer::*;
use crate::limits::*;

/// The grants of one slot as sets of nodes.
#[derive(Default)]
struct GrantSet {
    senders: u64,
    receivers: u64,
    /// The nodes of the grants, and those that a receiver disturbs.
    cannot_send: u64,
    /// The nodes of the grants, and those that a sender disturbs.
    cannot_receive: u64,
}

impl GrantSet {
    /// Takes the transmission in unless it conflicts with one that is in already. The rows are those of its two nodes.
    fn take(&mut self, sender: u8, receiver: u8, sender_row: u64, receiver_row: u64) -> bool {
        let (from, to) = (bit(sender), bit(receiver));
        let barred = (self.cannot_send & from) | (self.cannot_receive & to);
        let bars = (self.receivers & sender_row) | (self.senders & receiver_row);
        if barred | bars != 0 {
            return false;
        }
        self.senders |= from;
        self.receivers |= to;
        self.cannot_send |= from | to | receiver_row;
        self.cannot_receive |= from | to | sender_row;
        true
    }
}

impl Book<'_> {
    /// Codes 10, 12, 11, then the slot.
    pub fn run(&self, area: &mut [u8; AREA_BYTES], grants: &mut [u8]) -> u32 {
        let (clock, places) = area.split_at_mut(SLOT_BYTES);
        let slot = clock.iter().fold(0, |high, &byte| high << 8 | u32::from(byte));
        if slot > END_OF_SLOTS {
            return packed(BAD_AREA, 0);
        }
        let m = self.flows();
        let mut due = 0u32;
        let mut late = 0u32;
        let mut instances = [0u32; MAX_FLOWS];
        for (i, bytes) in self.records.chunks_exact(RECORD_BYTES).enumerate() {
            let record = Record::read(bytes);
            let (done, len) = (places[i], self.lens[i]);
            if done > len || (record.phase >= slot && done != len) {
                return packed(BAD_AREA, i);
            }
            if slot >= record.phase {
                let age = slot - record.phase;
                instances[i] = age / record.period;
                let released = u32::from(age % record.period == 0);
                due |= released << i;
                late |= (released & u32::from(done != len)) << i;
            }
        }
        if let Some(i) = places[m..].iter().position(|&byte| byte != 0) {
            return packed(BAD_AREA, m + i);
        }
        if slot == END_OF_SLOTS {
            return packed(END_REACHED, 0);
        }
        if late != 0 {
            return packed(UNFINISHED, late.trailing_zeros() as usize);
        }

        let mut set = GrantSet::default();
        let mut count = 0;
        for (i, plan) in self.plans().enumerate() {
            let done = if due >> i & 1 == 1 { 0 } else { places[i] };
            places[i] = done;
            let at = STEP_BYTES * usize::from(done);
            let Some(&[sender, receiver]) = plan.get(at..at + STEP_BYTES) else {
                continue;
            };
            if set.take(sender, receiver, self.row(sender), self.row(receiver)) {
                let grant = &mut grants[GRANT_BYTES * count..][..GRANT_BYTES];
                grant[..2].copy_from_slice(&self.records[RECORD_BYTES * i..][..2]);
                grant[2..6].copy_from_slice(&instances[i].to_be_bytes());
                grant[6..].copy_from_slice(&[done, sender, receiver]);
                places[i] = done + 1;
                count += 1;
            }
        }
        clock.copy_from_slice(&(slot + 1).to_be_bytes());
        packed(DONE, count)
    }
}
