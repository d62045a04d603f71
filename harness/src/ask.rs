//! A library's calls with buffers of the right lengths: the answer, or the refusal.

use crate::clauses::{Clauses, Model};
use crate::library::Library;
use crate::record::{Buffers, Record, Refusal};

pub struct Measured {
    pub variables: usize,
    pub clauses: usize,
    pub slots: usize,
}

impl Buffers {
    /// The clauses in the slots, over so many variables.
    pub fn clauses(&self, variables: usize) -> Clauses {
        let parts = self.slots.split_inclusive(|&l| l == 0);
        Clauses { variables, list: parts.map(|part| part[..part.len() - 1].to_vec()).collect() }
    }

    /// A row's literals.
    pub fn literals(&self, row: usize) -> &[i32] {
        &self.map[48 * row..48 * row + self.records[row].width as usize]
    }
}

fn answer<T>(number: u32, place: usize, found: T) -> Result<T, Refusal> {
    match number {
        0 => Ok(found),
        _ => Err(Refusal { number, place }),
    }
}

pub fn measure(library: &mut dyn Library, table: &[u8]) -> Result<Measured, Refusal> {
    let ([mut variables, mut clauses, mut slots], mut place) = ([0; 3], 0);
    let number = library.measure(table, &mut variables, &mut clauses, &mut slots, &mut place);
    let [variables, clauses, slots] = [variables, clauses, slots].map(|n| n as usize);
    answer(number, place, Measured { variables, clauses, slots })
}

fn room(library: &mut dyn Library, table: &[u8]) -> Result<Buffers, Refusal> {
    let rows = table.len() / 8;
    let slots = measure(library, table)?.slots;
    Ok(Buffers { records: vec![Record::default(); rows], map: vec![0; 48 * rows], slots: vec![0; slots] })
}

pub fn write(library: &mut dyn Library, table: &[u8]) -> Result<Buffers, Refusal> {
    let mut place = 0;
    let mut lent = room(library, table)?;
    let number = library.write(table, &mut lent.records, &mut lent.map, &mut lent.slots, &mut place);
    answer(number, place, lent)
}

pub fn evaluate(library: &mut dyn Library, table: &[u8], values: &[i64]) -> Result<Vec<i64>, Refusal> {
    let (mut results, mut place) = (vec![0; table.len() / 8], 0);
    let number = library.evaluate(table, values, &mut results, &mut place);
    answer(number, place, results)
}

pub fn extend(library: &mut dyn Library, table: &[u8], values: &[i64]) -> Result<(Model, bool), Refusal> {
    let mut model = vec![0; measure(library, table)?.variables];
    let (mut truth, mut place) = (0, 0);
    let number = library.extend(table, values, &mut model, &mut truth, &mut place);
    answer(number, place, (model, truth == 1))
}

/// The values of so many unknowns.
pub fn decode(library: &mut dyn Library, table: &[u8], model: &[u8], unknowns: usize) -> Result<Vec<i64>, Refusal> {
    let (mut values, mut place) = (vec![0; unknowns], 0);
    let Buffers { mut records, mut map, mut slots } = room(library, table)?;
    let number = library.decode(table, &mut records, &mut map, &mut slots, model, &mut values, &mut place);
    answer(number, place, values)
}
