//! Damaged tables, so that each of refusals 1 to 10 occurs, alone and beside others; and tables close to a limit, which may pass.

use super::tables::{constant, row};
use crate::random::Random;

/// The table with one damage, or two.
pub fn damaged(random: &mut Random, table: &[u8]) -> Vec<u8> {
    let once = damage(random, table.to_vec());
    if random.percent(20) {
        return damage(random, once);
    }
    once
}

fn damage(random: &mut Random, mut table: Vec<u8>) -> Vec<u8> {
    let rows = table.len() / 8;
    if rows == 0 {
        return random.bytes(8);
    }
    let at = 8 * random.below(rows);
    match random.below(20) {
        0 => table.truncate(table.len() - random.below(9)),
        1 => table.clear(),
        2 => table = table.repeat(256 / rows + 1 + random.below(2)),
        3 => table[at] = random.number() as u8,
        4 => table[at + 1 + random.below(7)] = random.number() as u8,
        5 => table[at + random.pick(&[1, 3, 5, 7])] = random.below(rows + 2) as u8,
        6 => drop(table.splice(at..at + 8, out_of_range(random))),
        7 | 8 => misdirect(random, &mut table, at),
        9 | 10 => wrong_sort(random, &mut table),
        11 | 12 => table.extend(wide_rows(random, rows)),
        13 | 14 => table.extend(fine_rows(random, rows)),
        15 => table.extend(constant(random.number() as i32, 1 + random.below(4096) as u16)),
        16 | 17 => drop(table.splice(at..at + 8, several_faults(random, at / 8))),
        18 => table.extend(leaves(random, 257 - rows.min(256))),
        _ => table.rotate_left(8 * random.below(rows)),
    }
    table
}

/// About so many rows that pass.
fn leaves(random: &mut Random, rows: usize) -> Vec<u8> {
    row(0x01, 0, 0, 0, 0).repeat(rows - random.below(2).min(rows))
}

/// A leaf whose constant, p or denominator is close to the end of its range or behind it.
fn out_of_range(random: &mut Random) -> [u8; 8] {
    let z = random.pick(&[0, 1, 4096, 4097, 65535]);
    match random.below(4) {
        0 => row(0x00, 0, random.pick(&[0, 1, 2, 256, 65535]), 0, 0),
        1 => row(0x02, random.pick(&[0, 1, 31, 32, 255]), 0, 0, z),
        2 => row(0x03, random.pick(&[0, 1, 32, 33, 255]), 0, 0, z),
        _ => constant(random.number() as i32, z),
    }
}

/// A row of a known kind whose fields may each be right or wrong, so that several refusals compete.
fn several_faults(random: &mut Random, at: usize) -> [u8; 8] {
    let kinds = [0x00, 0x01, 0x02, 0x03, 0x04, 0x10, 0x11, 0x12, 0x13, 0x14, 0x20, 0x21, 0x22, 0x23, 0x30, 0x31];
    let earlier = random.below(at.max(1)) as u16;
    let mut field = || random.pick(&[0, 0, 0, earlier, earlier, 1, 2, at as u16, at as u16 + 1, 4096, 4097]);
    let (x, y, z) = (field(), field(), field());
    row(random.pick(&kinds), random.pick(&[0, 0, 0, 1, 31, 32, 33, 255]), x, y, z)
}

/// Points one of the row's fields somewhere else: to any row, the row itself, or a later one.
fn misdirect(random: &mut Random, table: &mut [u8], at: usize) {
    let rows = table.len() / 8;
    let any = random.below(rows);
    let to = random.pick(&[any, at / 8, at / 8 + 1, 256 + at / 8, 65535]) as u16;
    let field = at + random.pick(&[2, 4, 6]);
    table[field..field + 2].copy_from_slice(&to.to_be_bytes());
}

/// Points a field of a row that has references to an earlier row, whatever its sort.
fn wrong_sort(random: &mut Random, table: &mut [u8]) {
    let rows: Vec<usize> = (1..table.len() / 8).filter(|r| table[8 * r] >= 0x10).collect();
    if rows.is_empty() {
        return;
    }
    let r = random.pick(&rows);
    let to = random.below(r) as u16;
    let field = 8 * r + random.pick(&[2, 4]);
    table[field..field + 2].copy_from_slice(&to.to_be_bytes());
}

/// One operation over two rows; n is a Boolean row.
fn operation(random: &mut Random, n: u16, a: u16, b: u16) -> [u8; 8] {
    match random.pick(&[0x20, 0x21, 0x22, 0x23, 0x30, 0x31]) {
        0x23 => row(0x23, 0, n, a, b),
        kind => row(kind, 0, a, b, 0),
    }
}

/// Rows behind the table whose widths are close to the limit: two unknowns, their product, a third number and one operation.
fn wide_rows(random: &mut Random, rows: usize) -> Vec<u8> {
    let denominators = [1, 1, 1, 2, 3, 4, 64];
    let p = random.from(16, 28) as u8;
    let q = (random.from(44, 49) - i64::from(p)) as u8;
    let n = rows as u16;
    let x = row(0x03, p, 0, 0, random.pick(&denominators));
    let y = row(random.pick(&[0x02, 0x03]), q.min(31), 0, 0, random.pick(&denominators));
    let product = row(0x22, 0, n + 1, n + 2, 0);
    let other = row(0x03, random.from(1, 32) as u8, 0, 0, random.pick(&denominators));
    let (a, b) = random.pick(&[(n + 3, n + 4), (n + 4, n + 3), (n + 1, n + 4), (n + 3, n + 3)]);
    let last = operation(random, n, a, b);
    [row(0x01, 0, 0, 0, 0), x, y, product, other, last, row(0x10, 0, n, 0, 0)].concat()
}

/// Rows behind the table whose denominators are close to the limit: two numbers and one operation.
fn fine_rows(random: &mut Random, rows: usize) -> Vec<u8> {
    let pairs =
        [(64, 64), (64, 65), (65, 63), (4096, 1), (4096, 2), (4096, 3), (2048, 6), (4095, 4095), (1365, 3), (63, 130)];
    let (d, e) = random.pick(&pairs);
    let any = [d, e, 1 + random.below(4096) as u16];
    let n = rows as u16;
    let x = row(0x03, random.from(1, 8) as u8, 0, 0, random.pick(&[d, d, d, any[2]]));
    let y = constant(random.from(-9, 9) as i32, random.pick(&any));
    let (a, b) = random.pick(&[(n + 1, n + 2), (n + 2, n + 1)]);
    let last = operation(random, n, a, b);
    [row(0x01, 0, 0, 0, 0), x, y, last, row(0x10, 0, n, 0, 0)].concat()
}
