//! The calls over a table: what each answers, given the lengths of the buffers that are lent.

use super::acceptance::{accept, Counts, Sheet};
use super::gates::{holds, Literal};
use super::steps::{build, Built};
use super::values::{fits, numerators};
use crate::record::{refuse, Buffers, Record, Refusal};

/// The lengths of records, map and slots.
#[derive(Clone, Copy, Debug)]
pub struct Room {
    pub records: usize,
    pub map: usize,
    pub slots: usize,
}

/// What decoding answers where it refuses nothing before 19.
pub struct Decoded {
    pub written: Buffers,
    pub values: Result<Vec<i64>, Refusal>,
}

pub fn check(table: &[u8], records: usize) -> Result<Vec<Record>, Refusal> {
    let sheet = accept(table)?;
    need(11, records, sheet.rows.len())?;
    Ok(sheet.records)
}

pub fn measure(table: &[u8]) -> Result<Counts, Refusal> {
    Ok(accept(table)?.counts)
}

pub fn write(table: &[u8], room: Room) -> Result<Buffers, Refusal> {
    let sheet = accept(table)?;
    lend(&sheet, room)?;
    let built = build(&sheet);
    Ok(written(sheet, &built))
}

/// The first slot of the row's clauses and how many there are.
pub fn row_clauses(table: &[u8], slots: usize, row: u32) -> Result<(usize, usize), Refusal> {
    let sheet = accept(table)?;
    need(13, slots, sheet.counts.slots as usize)?;
    match sheet.records.get(row as usize) {
        Some(record) => Ok((record.first_slot as usize, record.slot_count as usize)),
        None => refuse(22, sheet.rows.len()),
    }
}

pub fn evaluate(table: &[u8], values: &[i64], results: usize) -> Result<Vec<i64>, Refusal> {
    let sheet = accept(table)?;
    admit(&sheet, values)?;
    need(18, results, sheet.rows.len())?;
    Ok(numerators(&sheet, values))
}

/// The model, and whether the constraint is true.
pub fn extend(table: &[u8], values: &[i64], model: usize) -> Result<(Vec<u8>, bool), Refusal> {
    let sheet = accept(table)?;
    admit(&sheet, values)?;
    need(18, model, sheet.counts.variables as usize)?;
    let built = build(&sheet);
    let model = assignment(&sheet, &built, values);
    let truth = holds(&model, built.constraint());
    Ok((model, truth))
}

pub fn decode(table: &[u8], room: Room, model: &[u8], values: usize) -> Result<Decoded, Refusal> {
    let sheet = accept(table)?;
    lend(&sheet, room)?;
    let variables = sheet.counts.variables as usize;
    if model.len() != variables {
        return refuse(16, variables);
    }
    if let Some(index) = model.iter().position(|&byte| byte > 1) {
        return refuse(17, index);
    }
    need(18, values, sheet.unknowns().count())?;
    let built = build(&sheet);
    let settings = sheet.unknowns().map(|r| read(model, &built.literals[r], sheet.records[r].sort)).collect();
    let written = written(sheet, &built);
    let values = match first_false(&written.slots, model) {
        Some(clause) => refuse(19, clause),
        None => Ok(settings),
    };
    Ok(Decoded { written, values })
}

fn need(number: u32, length: usize, needed: usize) -> Result<(), Refusal> {
    if length < needed {
        return refuse(number, needed);
    }
    Ok(())
}

/// Refusals 11 to 13.
fn lend(sheet: &Sheet, room: Room) -> Result<(), Refusal> {
    need(11, room.records, sheet.rows.len())?;
    need(12, room.map, 48 * sheet.rows.len())?;
    need(13, room.slots, sheet.counts.slots as usize)
}

/// Refusals 14 and 15.
fn admit(sheet: &Sheet, values: &[i64]) -> Result<(), Refusal> {
    let unknowns: Vec<usize> = sheet.unknowns().collect();
    if values.len() != unknowns.len() {
        return refuse(14, unknowns.len());
    }
    match unknowns.iter().zip(values).position(|(&r, &v)| !fits(&sheet.rows[r], v)) {
        Some(index) => refuse(15, index),
        None => Ok(()),
    }
}

fn written(sheet: Sheet, built: &Built) -> Buffers {
    Buffers { records: sheet.records, map: built.map(), slots: built.slots() }
}

/// One byte a variable: the unknowns' bits are the values', every other variable is its gate's value.
fn assignment(sheet: &Sheet, built: &Built, values: &[i64]) -> Vec<u8> {
    let bits: Vec<bool> = sheet.unknowns().zip(values).flat_map(|(r, &v)| bits_of(sheet, r, v)).collect();
    let mut bits = bits.into_iter();
    let mut model: Vec<u8> = vec![];
    for gate in &built.circuit.gates {
        let value = gate.value(&model, &mut bits);
        model.push(value.into());
    }
    model
}

/// The declared bits of an unknown, lowest first.
fn bits_of(sheet: &Sheet, r: usize, value: i64) -> Vec<bool> {
    let declared = sheet.rows[r].p.max(1);
    (0..declared).map(|j| value >> j & 1 == 1).collect()
}

/// The number that literals hold in a model, or 0 or 1.
pub fn read(model: &[u8], literals: &[Literal], sort: u32) -> i64 {
    let bit = |j: usize| i64::from(holds(model, literals[j]));
    if sort == super::acceptance::BOOLEAN {
        return bit(0);
    }
    let sign = literals.len() - 1;
    let below: i64 = (0..sign).map(|j| bit(j) << j).sum();
    below - (bit(sign) << sign)
}

/// The first clause that a model makes false, from 1.
pub fn first_false(slots: &[i32], model: &[u8]) -> Option<usize> {
    let clauses = slots.split_inclusive(|&l| l == 0).map(|c| &c[..c.len() - 1]);
    let place = clauses.into_iter().position(|clause| !clause.iter().any(|&l| holds(model, l)));
    place.map(|p| p + 1)
}
