//! Random tables that pass.

use crate::clauses;
use crate::plain::acceptance::{judge, BOOLEAN, NUMBER};
use crate::random::Random;
use crate::record::Record;

/// What a table should be like.
#[derive(Clone, Copy, Debug)]
pub struct Taste {
    pub rows: usize,
    /// Declared bits of an unknown, at most.
    pub bits: i64,
    /// Declared bits of all unknowns together, at most.
    pub free: u32,
    pub denominators: &'static [u16],
    /// Slots of all rows together, at most.
    pub slots: u32,
    /// Variables of all rows together and variable 1, at most.
    pub variables: u32,
}

/// Denominators that are alike or close.
pub const FEW: &[u16] = &[1, 1, 1, 2, 3, 4, 6];
/// Denominators of all sizes.
pub const MANY: &[u16] = &[1, 1, 2, 3, 4, 5, 7, 8, 10, 12, 16, 60, 63, 64, 65, 100, 1000, 2048, 4095, 4096];

/// A taste for each of many sizes; few tables are large.
pub fn taste(random: &mut Random) -> Taste {
    let rows = match random.below(20) {
        0 => 1,
        1..=12 => random.from(2, 12),
        13..=17 => random.from(10, 60),
        18 => random.from(60, 256),
        _ => 256,
    };
    Taste {
        rows: rows as usize,
        bits: random.pick(&[1, 2, 3, 4, 8, 12, 24, 32]),
        free: 100_000,
        denominators: random.pick(&[&[1], FEW, FEW, MANY]),
        slots: random.pick(&[300, 2_000, 10_000, 16_300, 40_000]),
        variables: 100_000,
    }
}

/// A taste for tables of which every value can be tried.
pub fn small(random: &mut Random, free: u32) -> Taste {
    let rows = random.from(2, 14) as usize;
    let bits = random.pick(&[1, 2, 3, 4]);
    Taste { rows, bits, free, denominators: random.pick(&[&[1], FEW]), slots: 6_000, variables: 10_000 }
}

/// A taste for tables of which every assignment can be tried. An expansion has too many variables for it, so all denominators are alike.
pub fn tiny(random: &mut Random) -> Taste {
    let rows = random.from(2, 9) as usize;
    let bits = random.pick(&[1, 1, 2]);
    let denominators = random.pick(&[&[1], &[1], &[3]]);
    Taste { rows, bits, free: 8, denominators, slots: 6_000, variables: clauses::FEW as u32 }
}

pub fn row(kind: u8, p: u8, x: u16, y: u16, z: u16) -> [u8; 8] {
    let ([a, b], [c, d], [e, f]) = (x.to_be_bytes(), y.to_be_bytes(), z.to_be_bytes());
    [kind, p, a, b, c, d, e, f]
}

/// Two unknowns of 24 bits, so many products of 48 bits, and a comparison: 253 products make 256 rows and 19 million slots.
pub fn products(number: u16) -> Vec<u8> {
    let unknown = row(0x03, 24, 0, 0, 1);
    let product = row(0x22, 0, 0, 1, 0);
    [unknown, unknown]
        .into_iter()
        .chain((0..number).map(|_| product))
        .chain([row(0x30, 0, number, 0, 0)])
        .flatten()
        .collect()
}

/// A number constant.
pub fn constant(numerator: i32, denominator: u16) -> [u8; 8] {
    let numerator = numerator as u32;
    row(0x04, 0, (numerator >> 16) as u16, numerator as u16, denominator)
}

/// A table in the making: what has been accepted of it.
struct Draft {
    table: Vec<u8>,
    records: Vec<Record>,
    slots: u32,
    free: u32,
    variables: u32,
}

impl Draft {
    /// Appends a row if it passes and the taste allows it.
    fn try_row(&mut self, taste: &Taste, row: [u8; 8]) -> bool {
        let Ok((_, plan)) = judge(&row, &self.records) else {
            return false;
        };
        let slots = self.slots + plan.gates.slots();
        let free = self.free + plan.gates.free;
        let variables = self.variables + plan.gates.variables();
        if slots > taste.slots || free > taste.free || variables > taste.variables {
            return false;
        }
        let (first_slot, slot_count) = (self.slots, plan.gates.slots());
        let (sort, width, denominator) = (plan.sort, plan.width, plan.denominator);
        self.records.push(Record { sort, width, denominator, first_slot, slot_count });
        self.table.extend(row);
        (self.slots, self.free, self.variables) = (slots, free, variables);
        true
    }

    /// A row of a sort, rather a late one; any row where there is none.
    fn reference(&self, random: &mut Random, sort: u32) -> u16 {
        let rows: Vec<usize> = (0..self.records.len()).filter(|&r| self.records[r].sort == sort).collect();
        if rows.is_empty() {
            return 0;
        }
        rows[random.below(rows.len()).max(random.below(rows.len()))] as u16
    }
}

/// A random table that passes.
pub fn table(random: &mut Random, taste: &Taste) -> Vec<u8> {
    let mut draft = Draft { table: vec![], records: vec![], slots: 4, free: 0, variables: 1 };
    for _ in 1..taste.rows {
        let passes = (0..10).any(|_| {
            let row = any_row(random, taste, &draft);
            draft.try_row(taste, row)
        });
        if !passes {
            draft.try_row(taste, row(0x00, 0, 0, 0, 0));
        }
    }
    end(random, taste, &mut draft);
    draft.table
}

/// Appends a Boolean row, if possible over the row before it.
fn end(random: &mut Random, taste: &Taste, draft: &mut Draft) {
    for _ in 0..10 {
        let x = draft.records.len().saturating_sub(1) as u16;
        let row = match draft.records.last().map(|r| r.sort) {
            Some(NUMBER) => row(random.pick(&[0x30, 0x31]), 0, x, draft.reference(random, NUMBER), 0),
            _ => row(random.pick(&[0x11, 0x12, 0x13, 0x14]), 0, x, draft.reference(random, BOOLEAN), 0),
        };
        if draft.try_row(taste, row) {
            return;
        }
    }
    assert!(draft.try_row(taste, row(0x00, 0, 1, 0, 0)), "a constant always passes");
}

/// A table that wants exactly so many slots, an even number from 15,000 to 17,000: a product of 22 bits, and gates of 10 and 16 slots.
pub fn of_slots(random: &mut Random, slots: usize) -> Vec<u8> {
    let p = random.from(1, 21) as u8;
    let leaves = [row(0x01, 0, 0, 0, 0), row(0x03, p, 0, 0, 1), row(0x03, 22 - p, 0, 0, 1), row(0x22, 0, 1, 2, 0)];
    let product = 10 * (22 + 22 * 21 / 2) + (2 * 16 + 24) * (22 * 21 / 2);
    let left = slots.checked_sub(product + 4).filter(|left| left % 2 == 0).expect("the slots are even and enough");
    let of_sixteen =
        (0..5).find(|n| left >= 16 * n && (left - 16 * n).is_multiple_of(10)).expect("the slots are enough");
    let of_ten = (left - 16 * of_sixteen) / 10;
    let mut rows = leaves.to_vec();
    rows.extend(vec![row(0x14, 0, 0, 0, 0); of_sixteen]);
    rows.extend((0..of_ten).map(|_| row(random.pick(&[0x11, 0x12, 0x13]), 0, 0, 0, 0)));
    rows.concat()
}

fn any_row(random: &mut Random, taste: &Taste, draft: &Draft) -> [u8; 8] {
    let leaves = if draft.records.len() < 4 { 70 } else { 30 };
    if random.percent(leaves) {
        return leaf(random, taste);
    }
    match random.below(10) {
        0..=2 => boolean(random, draft),
        3..=7 => number(random, draft),
        _ => pair(random, draft, &[0x30, 0x31], NUMBER),
    }
}

fn leaf(random: &mut Random, taste: &Taste) -> [u8; 8] {
    let z = random.pick(taste.denominators);
    let bits = random.from(1, taste.bits);
    match random.below(16) {
        0 => row(0x00, 0, random.below(2) as u16, 0, 0),
        1..=3 => row(0x01, 0, 0, 0, 0),
        4..=7 => row(0x02, bits.min(31) as u8, 0, 0, z),
        8..=11 => row(0x03, bits as u8, 0, 0, z),
        _ => constant(numerator(random, bits), z),
    }
}

/// A numerator of about this many bits, often at the end of their range.
fn numerator(random: &mut Random, bits: i64) -> i32 {
    let end = 1i64 << (bits - 1);
    let number = match random.below(4) {
        0 => -end,
        1 => end - 1,
        2 => end,
        _ => random.from(-end, end - 1),
    };
    number as i32
}

fn pair(random: &mut Random, draft: &Draft, kinds: &[u8], sort: u32) -> [u8; 8] {
    row(random.pick(kinds), 0, draft.reference(random, sort), draft.reference(random, sort), 0)
}

fn boolean(random: &mut Random, draft: &Draft) -> [u8; 8] {
    if random.percent(20) {
        return row(0x10, 0, draft.reference(random, BOOLEAN), 0, 0);
    }
    pair(random, draft, &[0x11, 0x12, 0x13, 0x14], BOOLEAN)
}

fn number(random: &mut Random, draft: &Draft) -> [u8; 8] {
    if random.percent(25) {
        let [x, y, z] = [BOOLEAN, NUMBER, NUMBER].map(|sort| draft.reference(random, sort));
        return row(0x23, 0, x, y, z);
    }
    pair(random, draft, &[0x20, 0x21, 0x22], NUMBER)
}

#[cfg(test)]
mod tests {
    use super::{table, tiny};
    use crate::plain::acceptance::accept;
    use crate::random::Random;
    use std::collections::BTreeMap;

    #[test]
    fn tiny_tables_have_rows_of_every_kind() {
        let mut random = Random::new(1);
        let mut found: BTreeMap<u8, u32> = BTreeMap::new();
        for _ in 0..400 {
            let taste = tiny(&mut random);
            let table = table(&mut random, &taste);
            assert!(accept(&table).expect("it passes").counts.variables <= taste.variables);
            table.chunks(8).for_each(|row| *found.entry(row[0]).or_default() += 1);
        }
        assert!(found.len() == 16 && found.values().all(|&rows| rows >= 20), "{found:?}");
    }
}
