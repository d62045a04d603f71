//! Refusals 1 to 10, and the records and counts of a table that passes.

use super::row::{Kind, Row};
use super::tally::Tally;
use crate::record::{refuse, Record, Refusal};

pub const BOOLEAN: u32 = 0;
pub const NUMBER: u32 = 1;
pub const MOST_ROWS: usize = 256;
pub const MOST_WIDTH: u32 = 48;
pub const MOST_DENOMINATOR: u32 = 4096;

#[derive(Clone, Copy, Debug, PartialEq, Eq)]
pub struct Counts {
    pub variables: u32,
    pub clauses: u32,
    pub slots: u32,
}

/// A table that has passed.
#[derive(Clone, Debug)]
pub struct Sheet {
    pub rows: Vec<Row>,
    pub records: Vec<Record>,
    pub counts: Counts,
}

impl Sheet {
    /// The rows of the unknowns, in order.
    pub fn unknowns(&self) -> impl Iterator<Item = usize> + '_ {
        (0..self.rows.len()).filter(|&r| self.rows[r].kind.is_unknown())
    }
}

/// What a row will be: its sort, its shape and its gates.
#[derive(Clone, Copy, Debug)]
pub struct Plan {
    pub sort: u32,
    pub width: u32,
    pub denominator: u32,
    pub gates: Tally,
}

pub fn accept(table: &[u8]) -> Result<Sheet, Refusal> {
    if table.is_empty() || !table.len().is_multiple_of(8) {
        return refuse(1, 0);
    }
    if table.len() / 8 > MOST_ROWS {
        return refuse(2, 0);
    }
    let mut sheet = Sheet { rows: vec![], records: vec![], counts: Counts { variables: 1, clauses: 1, slots: 2 } };
    for (r, bytes) in table.chunks(8).enumerate() {
        match judge(bytes, &sheet.records) {
            Ok((row, plan)) => add(&mut sheet, row, plan),
            Err(number) => return refuse(number, r),
        }
    }
    let last = sheet.records.len() - 1;
    if sheet.records[last].sort == NUMBER {
        return refuse(10, last);
    }
    sheet.counts.clauses += 1;
    sheet.counts.slots += 2;
    Ok(sheet)
}

fn add(sheet: &mut Sheet, row: Row, plan: Plan) {
    let Plan { sort, width, denominator, gates } = plan;
    let counts = &mut sheet.counts;
    sheet.records.push(Record { sort, width, denominator, first_slot: counts.slots, slot_count: gates.slots() });
    sheet.rows.push(row);
    counts.variables += gates.variables();
    counts.clauses += gates.clauses();
    counts.slots += gates.slots();
}

/// Refusals 3 to 9 of one row, in order, given the records of the rows before it.
pub fn judge(bytes: &[u8], earlier: &[Record]) -> Result<(Row, Plan), u32> {
    let row = Row::of(bytes).ok_or(3u32)?;
    if !row.is_tidy() {
        return Err(4);
    }
    if !row.is_in_range() {
        return Err(5);
    }
    let references = row.references();
    if references.iter().any(|&r| r >= earlier.len()) {
        return Err(6);
    }
    let operands: Vec<Record> = references.iter().map(|&r| earlier[r]).collect();
    if operands.iter().map(|o| o.sort).ne(wanted_sorts(row.kind)) {
        return Err(7);
    }
    let plan = match row.pair() {
        Some((a, b)) => plan_pair(row.kind, earlier[a], earlier[b])?,
        None => plan_single(&row, &operands)?,
    };
    Ok((row, plan))
}

fn wanted_sorts(kind: Kind) -> Vec<u32> {
    match kind {
        Kind::Constant | Kind::Unknown | Kind::Natural | Kind::Integer | Kind::Number => vec![],
        Kind::Not => vec![BOOLEAN],
        Kind::And | Kind::Or | Kind::Implies | Kind::Iff => vec![BOOLEAN, BOOLEAN],
        Kind::Sum | Kind::Difference | Kind::Product | Kind::Greater | Kind::Equal => vec![NUMBER, NUMBER],
        Kind::Choice => vec![BOOLEAN, NUMBER, NUMBER],
    }
}

fn boolean(gates: Tally) -> Plan {
    Plan { sort: BOOLEAN, width: 1, denominator: 1, gates }
}

/// The fewest bits that hold a number, its sign among them.
pub fn width_of(number: i64) -> u32 {
    let size = if number < 0 { !number } else { number };
    65 - size.leading_zeros()
}

fn plan_single(row: &Row, operands: &[Record]) -> Result<Plan, u32> {
    let p = u32::from(row.p);
    let number = |width, gates| Plan { sort: NUMBER, width, denominator: row.z.into(), gates };
    Ok(match row.kind {
        Kind::Unknown => boolean(Tally::unknown(1)),
        Kind::Natural => number(p + 1, Tally::unknown(p)),
        Kind::Integer => number(p, Tally::unknown(p)),
        Kind::Number => number(width_of(row.numerator().into()), Tally::default()),
        Kind::And | Kind::Or | Kind::Implies => boolean(Tally::one_and()),
        Kind::Iff => boolean(Tally::one_xor()),
        Kind::Product => plan_product(operands[0], operands[1])?,
        _ => boolean(Tally::default()),
    })
}

fn plan_product(x: Record, y: Record) -> Result<Plan, u32> {
    let denominator = x.denominator * y.denominator;
    let width = x.width + y.width;
    if denominator > MOST_DENOMINATOR {
        return Err(8);
    }
    if width > MOST_WIDTH {
        return Err(9);
    }
    Ok(Plan { sort: NUMBER, width, denominator, gates: Tally::product(width) })
}

fn plan_pair(kind: Kind, a: Record, b: Record) -> Result<Plan, u32> {
    let denominator = least_common_multiple(a.denominator, b.denominator);
    if denominator > MOST_DENOMINATOR {
        return Err(8);
    }
    let (first, made) = expansion(a, denominator);
    let (second, made_too) = expansion(b, denominator);
    let wider = first.max(second);
    let before = made + made_too;
    let number = |width, gates: Tally| Plan { sort: NUMBER, width, denominator, gates: before + gates };
    let plan = match kind {
        Kind::Greater => boolean(before + Tally::greater(wider)),
        Kind::Equal => boolean(before + Tally::equal(wider)),
        Kind::Choice => number(wider, Tally::choice(wider)),
        _ => number(wider + 1, Tally::adder(wider + 1)),
    };
    if plan.width > MOST_WIDTH || wider > MOST_WIDTH {
        return Err(9);
    }
    Ok(plan)
}

/// The width of a number brought to the denominator, and the gates for that.
fn expansion(number: Record, denominator: u32) -> (u32, Tally) {
    let factor = denominator / number.denominator;
    if factor == 1 {
        return (number.width, Tally::default());
    }
    let width = number.width + width_of(factor.into());
    (width, Tally::product(width))
}

/// By Euclid's rule.
pub fn greatest_common_divisor(a: u32, b: u32) -> u32 {
    if b == 0 {
        a
    } else {
        greatest_common_divisor(b, a % b)
    }
}

pub fn least_common_multiple(a: u32, b: u32) -> u32 {
    a / greatest_common_divisor(a, b) * b
}
