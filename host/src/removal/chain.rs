//! What the claim does not say: the flows below the place may go in other slots than before, and later ones too.

use super::look::{bound, id, Look};
use super::{each_place, Calls, Removal};
use crate::cases::same;
use crate::draft::{chain, rest_of_chain};
use crate::plain::table::read;

/// Slots in which two instances of every flow of the chain begin and end.
const SLOTS: usize = 12;

/// Without its first flow, the second goes a slot earlier and the third, whose bound stays, a slot later.
pub fn shown(calls: &Calls) -> Result<(), String> {
    let (_, table) = read(&chain().bytes());
    each_place(calls, &[table], SLOTS, |removal| if removal.place == 0 { without_the_first(removal) } else { Ok(()) })
}

fn without_the_first(Removal { before, after, .. }: &Removal) -> Result<(), String> {
    same("book before", before.book(), &chain().bytes())?;
    same("bounds before", bounds(before), vec![1, 2, 2])?;
    same("slots before", went(before)?, vec![vec![0, 10], vec![1, 11], vec![0, 10]])?;
    same("book", after.book(), &rest_of_chain().bytes())?;
    same("bounds", bounds(after), vec![1, 2])?;
    same("slots", went(after)?, vec![vec![0, 10], vec![1, 11]])
}

fn bounds(look: &Look) -> Vec<u16> {
    (0..look.ids.len()).map(|l| bound(&look.by_book, l)).collect()
}

/// The slots in which each flow goes.
fn went(look: &Look) -> Result<Vec<Vec<usize>>, String> {
    let slots = look.slots.as_ref()?;
    let goes = |flow: u16| (0..SLOTS).filter(move |&slot| slots[slot].iter().any(|grant| id(grant) == flow));
    Ok(look.ids.iter().map(|&flow| goes(flow).collect()).collect())
}
