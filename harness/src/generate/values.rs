//! Values for a table's unknowns, and lists of values that are refused.

use crate::plain::acceptance::Sheet;
use crate::plain::calls::evaluate;
use crate::plain::row::{Kind, Row};
use crate::random::Random;

/// The least and the largest value of an unknown.
pub fn range(row: &Row) -> (i64, i64) {
    match row.kind {
        Kind::Natural => (0, (1 << row.p) - 1),
        Kind::Integer => (-1 << (row.p - 1), (1 << (row.p - 1)) - 1),
        _ => (0, 1),
    }
}

/// Values within their declared bits, often at an end.
pub fn values(random: &mut Random, sheet: &Sheet) -> Vec<i64> {
    let unknowns: Vec<usize> = sheet.unknowns().collect();
    let value = |r: usize| {
        let (least, most) = range(&sheet.rows[r]);
        match random.below(5) {
            0 => least,
            1 => most,
            _ => random.from(least, most),
        }
    };
    unknowns.into_iter().map(value).collect()
}

/// Values that make the constraint true, if some tries find them; else any.
pub fn likely_true(random: &mut Random, table: &[u8], sheet: &Sheet) -> Vec<i64> {
    let mut found = values(random, sheet);
    for _ in 0..20 {
        let results = evaluate(table, &found, sheet.rows.len()).expect("the values are within their bits");
        if results.last() == Some(&1) {
            break;
        }
        found = values(random, sheet);
    }
    found
}

/// Values of which one or two are out of range, or too many or too few.
pub fn damaged(random: &mut Random, sheet: &Sheet) -> Vec<i64> {
    let mut found = values(random, sheet);
    let unknowns: Vec<usize> = sheet.unknowns().collect();
    if unknowns.is_empty() || random.percent(30) {
        if random.percent(50) {
            found.push(0);
        } else {
            found.pop();
        }
        return found;
    }
    for _ in 0..1 + random.below(2) {
        let i = random.below(unknowns.len());
        let (least, most) = range(&sheet.rows[unknowns[i]]);
        let any = random.number() as i64;
        found[i] = random.pick(&[least - 1, most + 1, i64::MIN, i64::MAX, any]);
    }
    found
}
