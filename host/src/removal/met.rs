//! What was met while flows were taken out: how much, and whether every situation was among it that the claim is about.

use super::look::{bound, id, Grant, Look};
use super::Removal;
use crate::limits::*;
use std::collections::HashMap;

const ONLY: &str = "the only flow taken out";
const FIRST: &str = "the first of several";
const BETWEEN: &str = "one in between";
const LAST: &str = "the last of several";
const FULLEST: &str = "one of the most that a table holds";
const TIGHT: &str = "flows whose deadline is their bound";
const LOOSE: &str = "flows whose deadline is above it";
const FELL: &str = "bounds below that fell";
const STAYED: &str = "bounds below that stayed";
const BESIDE: &str = "slots in which flows above went beside the one taken out";
const SAME: &str = "steps below in the same slot";
const EARLIER: &str = "steps below in an earlier slot";
const LATER: &str = "steps below in a later slot";

const SITUATIONS: [&str; 13] =
    [ONLY, FIRST, BETWEEN, LAST, FULLEST, TIGHT, LOOSE, FELL, STAYED, BESIDE, SAME, EARLIER, LATER];

/// How much the claim was found to hold of.
#[derive(Default)]
pub struct Met {
    pub places: u64,
    pub slots: u64,
    /// Grants of flows above the place, the same in both runs.
    pub grants: u64,
    situations: HashMap<&'static str, usize>,
}

impl Met {
    fn meet(&mut self, what: &'static str, times: usize) {
        *self.situations.entry(what).or_default() += times;
    }

    /// One more removal.
    pub fn count(&mut self, removal: &Removal) {
        let Removal { table, place, before, after, .. } = removal;
        let (flows, left) = (before.ids.len(), after.ids.len());
        self.places += 1;
        self.meet([[BETWEEN, LAST], [FIRST, ONLY]][usize::from(*place == 0)][usize::from(*place == left)], 1);
        self.meet(FULLEST, usize::from(flows == MAX_FLOWS));

        let at_bound = |&i: &usize| table.sections().record(i).deadline == bound(&before.by_table, i);
        let tight = (0..flows).filter(at_bound).count();
        self.meet(TIGHT, tight);
        self.meet(LOOSE, flows - tight);
        let fell = |&l: &usize| bound(&after.by_table, l) < bound(&before.by_table, l + 1);
        let fallen = (*place..left).filter(fell).count();
        self.meet(FELL, fallen);
        self.meet(STAYED, left - place - fallen);
        self.runs(*place, before, after);
    }

    /// The slots of the two runs, none of which was refused.
    fn runs(&mut self, place: usize, before: &Look, after: &Look) {
        let (Ok(then), Ok(now)) = (&before.slots, &after.slots) else { return };
        let (above, below) = (&before.ids[..place], &after.ids[place..]);
        for grants in then {
            let kept = grants.iter().filter(|grant| above.contains(&id(grant))).count();
            let beside = kept > 0 && grants.iter().any(|grant| id(grant) == before.ids[place]);
            self.slots += 1;
            self.grants += kept as u64;
            self.meet(BESIDE, usize::from(beside));
        }
        let went = steps(then, below);
        for (step, slot) in steps(now, below) {
            match went.get(step) {
                Some(earlier) if *earlier < slot => self.meet(LATER, 1),
                Some(later) if *later > slot => self.meet(EARLIER, 1),
                Some(_) => self.meet(SAME, 1),
                None => {}
            }
        }
    }

    /// A line for each situation. Every one must have been met.
    pub fn close(&self) -> Result<(), String> {
        let times = |what: &&str| self.situations.get(what).copied().unwrap_or(0);
        SITUATIONS.iter().for_each(|what| println!("  {what}: {}", times(what)));
        match SITUATIONS.iter().find(|what| times(what) == 0) {
            Some(what) => Err(format!("never met: {what}")),
            None => Ok(()),
        }
    }
}

/// The slot of each step of these flows: of its id, instance and step, as the bytes in front of a grant's two nodes have them.
fn steps<'a>(slots: &'a [Vec<Grant>], ids: &[u16]) -> HashMap<&'a [u8], usize> {
    let grants = slots.iter().enumerate().flat_map(|(slot, grants)| grants.iter().map(move |grant| (slot, grant)));
    let ours = grants.filter(|(_, grant)| ids.contains(&id(grant)));
    ours.map(|(slot, grant)| (&grant[..GRANT_BYTES - STEP_BYTES], slot)).collect()
}
