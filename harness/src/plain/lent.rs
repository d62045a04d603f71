//! The calls as include/fordrambler.h has them: buffers are lent, and the refusal's number is answered.

use super::acceptance::Counts;
use super::calls::{self, Room};
use super::{lines, solver_text};
use crate::record::{Buffers, Record, Refusal};

/// Answers the number and sets the place; a result goes where it is wanted.
fn answer<T>(result: Result<T, Refusal>, place: &mut usize, store: impl FnOnce(T)) -> u32 {
    match result {
        Ok(value) => {
            store(value);
            *place = 0;
            0
        }
        Err(refusal) => {
            *place = refusal.place;
            refusal.number
        }
    }
}

/// Fills the start of a buffer; its tail stays.
fn fill<T: Copy>(buffer: &mut [T], with: &[T]) {
    buffer[..with.len()].copy_from_slice(with);
}

pub fn check(table: &[u8], records: &mut [Record], place: &mut usize) -> u32 {
    answer(calls::check(table, records.len()), place, |found| fill(records, &found))
}

pub fn measure(table: &[u8], variables: &mut u32, clauses: &mut u32, slots: &mut u32, place: &mut usize) -> u32 {
    answer(calls::measure(table), place, |counts: Counts| {
        (*variables, *clauses, *slots) = (counts.variables, counts.clauses, counts.slots);
    })
}

fn store(written: &Buffers, records: &mut [Record], map: &mut [i32], slots: &mut [i32]) {
    fill(records, &written.records);
    fill(map, &written.map);
    fill(slots, &written.slots);
}

pub fn write(table: &[u8], records: &mut [Record], map: &mut [i32], slots: &mut [i32], place: &mut usize) -> u32 {
    let room = Room { records: records.len(), map: map.len(), slots: slots.len() };
    answer(calls::write(table, room), place, |written| store(&written, records, map, slots))
}

pub fn row_clauses(
    table: &[u8],
    slots: &[i32],
    row: u32,
    first: &mut usize,
    count: &mut usize,
    place: &mut usize,
) -> u32 {
    answer(calls::row_clauses(table, slots.len(), row), place, |part| (*first, *count) = part)
}

pub fn evaluate(table: &[u8], values: &[i64], results: &mut [i64], place: &mut usize) -> u32 {
    answer(calls::evaluate(table, values, results.len()), place, |found| fill(results, &found))
}

pub fn extend(table: &[u8], values: &[i64], model: &mut [u8], truth: &mut u8, place: &mut usize) -> u32 {
    answer(calls::extend(table, values, model.len()), place, |(found, is_true)| {
        fill(model, &found);
        *truth = is_true.into();
    })
}

#[allow(clippy::too_many_arguments)]
pub fn decode(
    table: &[u8],
    records: &mut [Record],
    map: &mut [i32],
    slots: &mut [i32],
    model: &[u8],
    values: &mut [i64],
    place: &mut usize,
) -> u32 {
    let room = Room { records: records.len(), map: map.len(), slots: slots.len() };
    let found = calls::decode(table, room, model, values.len()).and_then(|decoded| {
        store(&decoded.written, records, map, slots);
        decoded.values
    });
    answer(found, place, |found| fill(values, &found))
}

pub fn read_lines(text: &[u8], table: &mut [u8], table_read: &mut usize, place: &mut usize) -> u32 {
    answer(lines::read_lines(text, table.len()), place, |read| {
        fill(table, &read);
        *table_read = read.len();
    })
}

pub fn read_lines_until_empty(
    text: &[u8],
    table: &mut [u8],
    table_read: &mut usize,
    rest: &mut usize,
    ended: &mut u8,
    place: &mut usize,
) -> u32 {
    answer(lines::read_lines_until_empty(text, table.len()), place, |read| {
        fill(table, &read.table);
        *table_read = read.table.len();
        *rest = read.ended.unwrap_or(text.len());
        *ended = read.ended.is_some().into();
    })
}

pub fn read_claim(text: &[u8], variables: u32, model: &mut [u8], claim: &mut u8, place: &mut usize) -> u32 {
    answer(solver_text::read_claim(text, variables, model.len()), place, |found| {
        fill(model, found.as_deref().unwrap_or(&[]));
        *claim = found.is_some().into();
    })
}
