//! Damage at random, of which nothing is known beforehand.

use crate::dice::Dice;
use crate::limits::{MAX_NODES, TRAILER_BYTES};

/// One to three random changes of the bytes: flips, other bytes, cuts, bytes in front or behind, bytes moved.
pub fn at_random(dice: &mut Dice, book: &[u8]) -> Vec<u8> {
    let mut book = book.to_vec();
    for _ in 0..dice.pick(&[1, 1, 1, 2, 3]) {
        if book.is_empty() {
            break;
        }
        let at = dice.below(book.len());
        // The trailer and the records behind the rows are small next to the steps: aim there half of the time.
        let late = book.len() - 1 - dice.below(book.len().min(2 * TRAILER_BYTES));
        let at = dice.pick(&[at, late]);
        match dice.below(9) {
            0 | 1 => book[at] ^= 1 << dice.below(8),
            2 => book[at] = dice.byte(),
            3 => book[at] = dice.pick(&[0, 1, 2, MAX_NODES as u8, u8::MAX]),
            4 => book[at] = book[at].wrapping_add(dice.pick(&[1, u8::MAX])),
            5 => drop(book.drain(..dice.between(1, at + 1))),
            6 => book.truncate(at),
            7 => drop(book.splice(at..at, [0, 0])),
            _ => {
                let count = dice.between(1, 24);
                let lead = dice.bytes(count);
                drop(book.splice(..0, lead));
            }
        }
    }
    book
}

/// Bytes that were never a book, some with a trailer that looks like one.
pub fn noise(dice: &mut Dice) -> Vec<u8> {
    let count = dice.below(120);
    let mut bytes = dice.bytes(count);
    if dice.once_in(2) {
        bytes.extend(crate::limits::MARK);
    }
    bytes
}
