//! Models: extended ones, and such with bits turned, bytes or lengths that are refused.

use super::values;
use crate::plain::acceptance::Sheet;
use crate::plain::calls::extend;
use crate::random::Random;

/// The model that carries some values; the constraint is often true in it.
pub fn model(random: &mut Random, table: &[u8], sheet: &Sheet) -> Vec<u8> {
    let chosen = values::likely_true(random, table, sheet);
    extend(table, &chosen, sheet.counts.variables as usize).expect("the values are within their bits").0
}

/// The model with some bits turned.
pub fn turned(random: &mut Random, mut model: Vec<u8>) -> Vec<u8> {
    for _ in 0..1 + random.below(3) {
        let i = random.below(model.len());
        model[i] ^= 1;
    }
    model
}

/// The model with a length or a byte that is refused.
pub fn damaged(random: &mut Random, mut model: Vec<u8>) -> Vec<u8> {
    match random.below(4) {
        0 => model.push(0),
        1 => model.truncate(model.len() - 1),
        _ => {
            let i = random.below(model.len());
            model[i] = random.pick(&[2, 3, 255, b'0', b'1']);
        }
    }
    model
}

/// A model of any of these sorts.
pub fn any(random: &mut Random, table: &[u8], sheet: &Sheet) -> Vec<u8> {
    let right = model(random, table, sheet);
    match random.below(10) {
        0..=4 => right,
        5 | 6 => turned(random, right),
        7 => random.bytes(right.len()).iter().map(|b| b & 1).collect(),
        _ => damaged(random, right),
    }
}
