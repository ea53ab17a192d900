//! Read, add and check of a table.

use super::book::{bad_step, Book, Record};
use super::bound::Admission;
use crate::answer::*;
use crate::limits::*;
use crate::memory::{figure_at, Newcomer, Table};
use std::iter::once;

/// Codes 1 to 8; the table of the book, each figure worked out once.
pub fn read(slice: &[u8], table: &mut Table) -> Result<(), u32> {
    let book = Book::open(slice)?;
    (table.n, table.m) = (book.nodes() as u8, book.flows() as u8);
    put(&mut table.rows, &[book.rows]);
    put(&mut table.records, &[book.records]);
    put(&mut table.steps, &[book.steps]);
    table.figures.fill(0);
    book.lines(|l, line| {
        above_mut(&mut table.figures, l).copy_from_slice(line);
        Ok(())
    })
}

/// Codes 3, 5, 6 and 8; 9 by the figures that the table has; the bounds, zeros elsewhere.
pub fn check(table: &Table) -> Result<[u16; MAX_FLOWS], u32> {
    Book::of_table(table)?;
    bounds(table)
}

/// Codes 3, 5, 6, 8 and 17 on the old table, 14, 15, then 6 and 8 on the newcomer, and 9 on the new table.
pub fn add(table: &Table, newcomer: &Newcomer, new: &mut Table) -> Result<(), u32> {
    let place = newcomer.place;
    let old = Book::of_table(table)?;
    test_figures(&old, table)?;
    if old.flows() == MAX_FLOWS {
        return Err(packed(TABLE_FULL, 0));
    }
    if place > old.flows() {
        return Err(packed(BAD_PLACE, 0));
    }
    let record = test_newcomer(&old, newcomer)?;
    let plan = &newcomer.plan[..STEP_BYTES * record.len as usize];
    let before = old.lens[..place].iter().fold(0, |sum, &len| sum + usize::from(len));
    if let Some(k) = bad_step(plan, old.nodes()) {
        return Err(packed(BAD_STEP, before + k));
    }

    (new.n, new.m) = (table.n, table.m + 1);
    put(&mut new.rows, &[old.rows]);
    put_in(&mut new.records, old.records, RECORD_BYTES * place, &newcomer.record);
    put_in(&mut new.steps, old.steps, STEP_BYTES * before, plan);
    carry(&old, &table.figures, place, plan, &mut new.figures);
    bounds(new).map(|_| ())
}

/// The figures of the flows above flow l.
fn above(figures: &[u8], l: usize) -> &[u8] {
    &figures[figure_at(l, 0)..figure_at(l, l)]
}

fn above_mut(figures: &mut [u8], l: usize) -> &mut [u8] {
    &mut figures[figure_at(l, 0)..figure_at(l, l)]
}

/// Code 9 by the figures of a table that has passed the other tests, or the bounds.
fn bounds(table: &Table) -> Result<[u16; MAX_FLOWS], u32> {
    let mut admission = Admission::new();
    let mut bounds = [0; MAX_FLOWS];
    let used = &table.records[..RECORD_BYTES * usize::from(table.m)];
    for (l, record) in used.chunks_exact(RECORD_BYTES).enumerate() {
        for (cost, &figure) in admission.costs().iter_mut().zip(above(&table.figures, l)) {
            *cost = u32::from(figure);
        }
        bounds[l] = admission.admit(Record::read(record))? as u16;
    }
    Ok(bounds)
}

/// Code 17.
fn test_figures(book: &Book, table: &Table) -> Result<(), u32> {
    book.lines(|l, line| if above(&table.figures, l) == line { Ok(()) } else { Err(packed(BAD_FIGURE, l)) })
}

/// Code 6 of the new table. Of two equal ids the later one is bad.
fn test_newcomer(old: &Book, newcomer: &Newcomer) -> Result<Record, u32> {
    let record = Record::read(&newcomer.record);
    let has_its_id = |other: &[u8]| other[..2] == newcomer.record[..2];
    if record.out_of_range() {
        return Err(packed(BAD_RECORD, newcomer.place));
    }
    match old.records.chunks_exact(RECORD_BYTES).position(has_its_id) {
        Some(twin) => Err(packed(BAD_RECORD, newcomer.place.max(twin + 1))),
        None => Ok(record),
    }
}

/// The parts at the front of a section, one behind the other, and zeros behind them.
fn put(section: &mut [u8], parts: &[&[u8]]) {
    let mut rest = section;
    for part in parts {
        let (front, after) = rest.split_at_mut(part.len());
        front.copy_from_slice(part);
        rest = after;
    }
    rest.fill(0);
}

/// The same with a part put in at a place among the used bytes.
fn put_in(section: &mut [u8], used: &[u8], at: usize, part: &[u8]) {
    let (front, back) = used.split_at(at);
    put(section, &[front, part, back]);
}

/// The figures where a flow with this plan has come in at a place: only its own are worked out, the others are carried over.
fn carry(old: &Book, figures: &[u8], place: usize, plan: &[u8], new: &mut [u8]) {
    new.fill(0);
    for l in 0..place {
        above_mut(new, l).copy_from_slice(above(figures, l));
    }
    old.line(plan, old.plans(), above_mut(new, place));
    for (l, lower) in old.plans().enumerate().skip(place) {
        let line = above_mut(new, l + 1);
        put_in(line, above(figures, l), place, &[0]);
        old.line(lower, once(plan), &mut line[place..=place]);
    }
}
