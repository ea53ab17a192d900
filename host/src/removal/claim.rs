//! What is claimed of a flow that is taken out, and what speaks against it.

use super::look::{bound, id, Grant, Look};
use super::Removal;
use crate::answer::{code_of, number_of, packed, DONE};
use crate::call::hex;
use std::fmt;

/// What is claimed of the flow at a place. Two turns of it are easily taken wrong, and can be given in another way to see that it shows.
#[derive(Clone, Copy)]
pub struct Claim {
    /// Given the place, where the flow at place l of what is left stood before.
    pub stood: fn(usize, usize) -> usize,
    /// Given the place, whether the grants of the flow at place i of the old table stay as they are.
    pub keeps: fn(usize, usize) -> bool,
}

/// What is promised.
pub const NEVER_HURTS: Claim =
    Claim { stood: |place, l| if l < place { l } else { l + 1 }, keeps: |place, i| i < place };

/// The points of the claim, after what it asks of the table.
#[derive(Clone, Copy, Debug, PartialEq, Eq)]
pub enum Point {
    Asked,
    Left,
    Bounds,
    Grants,
}

pub struct Finding {
    pub point: Point,
    pub what: String,
}

impl fmt::Display for Finding {
    fn fmt(&self, out: &mut fmt::Formatter) -> fmt::Result {
        let point = match self.point {
            Point::Asked => "the table is not accepted",
            Point::Left => "the other flows are not left, or not accepted",
            Point::Bounds => "a bound has risen",
            Point::Grants => "the flows above have other grants",
        };
        write!(out, "{point}: {}", self.what)
    }
}

fn demand(point: Point, holds: bool, what: impl FnOnce() -> String) -> Result<(), Finding> {
    if holds {
        Ok(())
    } else {
        Err(Finding { point, what: what() })
    }
}

impl Claim {
    /// The first point of the claim that does not hold of this removal.
    pub fn judge(&self, removal: &Removal) -> Result<(), Finding> {
        passes(Point::Asked, removal.before)?;
        left(removal)?;
        self.bounds(removal)?;
        self.grants(removal)
    }

    /// Flow by flow, by the check of the table and by check of its book.
    fn bounds(&self, Removal { place, before, after, .. }: &Removal) -> Result<(), Finding> {
        for l in 0..after.ids.len() {
            let stood = (self.stood)(*place, l);
            for (then, now) in [(&before.by_table, &after.by_table), (&before.by_book, &after.by_book)] {
                let (then, now) = (bound(then, stood), bound(now, l));
                let told = || format!("{now} at place {l}, and {then} at place {stood} before");
                demand(Point::Bounds, now <= then, told)?;
            }
        }
        Ok(())
    }

    /// Slot by slot: the grants that are to stay stand first in both, as many, in the same bytes; those behind are of other flows.
    fn grants(&self, Removal { place, before, after, .. }: &Removal) -> Result<(), Finding> {
        let keeps = |i: &usize| (self.keeps)(*place, *i);
        let kept: Vec<u16> = (0..before.ids.len()).filter(keeps).map(|i| before.ids[i]).collect();
        for (slot, (then, now)) in runs(before, after)?.enumerate() {
            let told = |what: String| Finding { point: Point::Grants, what: format!("slot {slot}: {what}") };
            let first = front(then, &before.ids, &kept).map_err(|what| told(format!("before, {what}")))?;
            let second = front(now, &after.ids, &kept).map_err(|what| told(format!("afterwards, {what}")))?;
            if first != second {
                let [first, second] = [first, second].map(|grants| hex(&grants.concat()));
                return Err(told(format!("{first} before, {second} afterwards")));
            }
        }
        Ok(())
    }
}

/// Both checks and write pass the table.
fn passes(point: Point, look: &Look) -> Result<(), Finding> {
    look.refused().map_or(Ok(()), |what| Err(Finding { point, what }))
}

/// Remove is done, the other flows are left in their order, and the table is accepted.
fn left(Removal { place, before, answer, after, .. }: &Removal) -> Result<(), Finding> {
    let done = *answer == packed(DONE, 0);
    demand(Point::Left, done, || format!("remove answers code {} number {}", code_of(*answer), number_of(*answer)))?;
    passes(Point::Left, after)?;
    let mut others = before.ids.clone();
    others.remove(*place);
    demand(Point::Left, after.ids == others, || format!("the flows are {:?}, not {others:?}", after.ids))
}

/// The slots of both runs, of which nothing is refused.
fn runs<'a>(before: &'a Look, after: &'a Look) -> Result<impl Iterator<Item = (&'a [Grant], &'a [Grant])>, Finding> {
    let slots = |point: Point, look: &'a Look| match &look.slots {
        Ok(slots) => Ok(slots.iter().map(|grants| &grants[..])),
        Err(what) => Err(Finding { point, what: format!("refused by {what}") }),
    };
    Ok(slots(Point::Asked, before)?.zip(slots(Point::Left, after)?))
}

/// The grants of these flows, which stand in front of all others of the book.
fn front<'a>(grants: &'a [Grant], ids: &[u16], kept: &[u16]) -> Result<&'a [Grant], String> {
    if let Some(grant) = grants.iter().find(|grant| !ids.contains(&id(grant))) {
        return Err(format!("flow {} goes, which is not in the table", id(grant)));
    }
    let (front, others) = grants.split_at(grants.iter().take_while(|grant| kept.contains(&id(grant))).count());
    match others.iter().find(|grant| kept.contains(&id(grant))) {
        Some(grant) => Err(format!("flow {} stands behind one that it is to stand before", id(grant))),
        None => Ok(front),
    }
}
