//! What rows are worth at chosen values: exact numerators over the rows' denominators.

use super::acceptance::Sheet;
use super::row::{Kind, Row};

/// Whether a value is within the declared bits of an unknown.
pub fn fits(row: &Row, value: i64) -> bool {
    match row.kind {
        Kind::Natural => (0..1 << row.p).contains(&value),
        Kind::Integer => (-1i64 << (row.p - 1)..1 << (row.p - 1)).contains(&value),
        _ => value == 0 || value == 1,
    }
}

/// Every row's numerator; a Boolean is 0 or 1.
pub fn numerators(sheet: &Sheet, values: &[i64]) -> Vec<i64> {
    let mut values = values.iter();
    let mut results: Vec<i64> = vec![];
    for (r, row) in sheet.rows.iter().enumerate() {
        let result = if row.kind.is_unknown() {
            *values.next().expect("one value for each unknown")
        } else {
            numerator(sheet, r, &results)
        };
        results.push(result);
    }
    results
}

fn numerator(sheet: &Sheet, r: usize, results: &[i64]) -> i64 {
    let row = &sheet.rows[r];
    let (x, y, z) = (usize::from(row.x), usize::from(row.y), usize::from(row.z));
    let truth = |i: usize| results[i] == 1;
    match row.kind {
        Kind::Constant => row.x.into(),
        Kind::Number => row.numerator().into(),
        Kind::Not => (!truth(x)).into(),
        Kind::And => (truth(x) && truth(y)).into(),
        Kind::Or => (truth(x) || truth(y)).into(),
        Kind::Implies => (!truth(x) || truth(y)).into(),
        Kind::Iff => (truth(x) == truth(y)).into(),
        Kind::Sum => over(sheet, x, r, results) + over(sheet, y, r, results),
        Kind::Difference => over(sheet, x, r, results) - over(sheet, y, r, results),
        Kind::Product => results[x] * results[y],
        Kind::Choice => over(sheet, if truth(x) { y } else { z }, r, results),
        Kind::Greater => (cross(sheet, x, y, results) > cross(sheet, y, x, results)).into(),
        Kind::Equal => (cross(sheet, x, y, results) == cross(sheet, y, x, results)).into(),
        Kind::Unknown | Kind::Natural | Kind::Integer => unreachable!("an unknown's value is given"),
    }
}

/// Row i's numerator over row r's denominator, a multiple of its own.
fn over(sheet: &Sheet, i: usize, r: usize, results: &[i64]) -> i64 {
    results[i] * i64::from(sheet.records[r].denominator / sheet.records[i].denominator)
}

/// Row i's numerator times row j's denominator.
fn cross(sheet: &Sheet, i: usize, j: usize, results: &[i64]) -> i128 {
    i128::from(results[i]) * i128::from(sheet.records[j].denominator)
}
