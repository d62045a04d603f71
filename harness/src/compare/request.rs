//! One call with all that is lent to it, and what comes of it.

use crate::library::Library;
use crate::plain::print::lines;
use crate::record::{Buffers, Record};

/// A call. What it sets is filled with a pattern before.
pub enum Request {
    Check { table: Vec<u8>, records: Vec<Record> },
    Measure { table: Vec<u8> },
    Write { table: Vec<u8>, buffers: Buffers },
    RowClauses { table: Vec<u8>, slots: Vec<i32>, row: u32 },
    Evaluate { table: Vec<u8>, values: Vec<i64>, results: Vec<i64> },
    Extend { table: Vec<u8>, values: Vec<i64>, model: Vec<u8> },
    Decode { table: Vec<u8>, buffers: Buffers, model: Vec<u8>, values: Vec<i64> },
    ReadLines { text: Vec<u8>, table: Vec<u8> },
    ReadLinesUntilEmpty { text: Vec<u8>, table: Vec<u8> },
    ReadClaim { text: Vec<u8>, variables: u32, model: Vec<u8> },
}

/// What a call leaves: the refusal's number, its place, and everything lent.
#[derive(PartialEq)]
pub struct Outcome {
    pub number: u32,
    pub place: usize,
    pub lent: Vec<(&'static str, Vec<i64>)>,
}

const PATTERN: u32 = 0xdead_beef;
const SIZE: usize = 0xdead_beef_dead_beef;
const BYTE: u8 = 0xa7;

fn longs<T: Copy + Into<i64>>(numbers: &[T]) -> Vec<i64> {
    numbers.iter().map(|&n| n.into()).collect()
}

fn fields(records: &[Record]) -> Vec<i64> {
    let of = |r: &Record| [r.sort, r.width, r.denominator, r.first_slot, r.slot_count].map(i64::from);
    records.iter().flat_map(of).collect()
}

impl Buffers {
    fn lent(&self) -> Vec<(&'static str, Vec<i64>)> {
        vec![("records", fields(&self.records)), ("map", longs(&self.map)), ("slots", longs(&self.slots))]
    }
}

impl Request {
    pub fn name(&self) -> &'static str {
        match self {
            Request::Check { .. } => "call check",
            Request::Measure { .. } => "call measure",
            Request::Write { .. } => "call write",
            Request::RowClauses { .. } => "call row_clauses",
            Request::Evaluate { .. } => "call evaluate",
            Request::Extend { .. } => "call extend",
            Request::Decode { .. } => "call decode",
            Request::ReadLines { .. } => "call read_lines",
            Request::ReadLinesUntilEmpty { .. } => "call read_lines_until_empty",
            Request::ReadClaim { .. } => "call read_claim",
        }
    }

    /// Makes the call, over copies of what is lent.
    pub fn make(&self, library: &mut dyn Library) -> Outcome {
        let mut place = SIZE;
        let (number, lent) = match self {
            Request::Check { .. } | Request::Measure { .. } | Request::Write { .. } | Request::RowClauses { .. } => {
                self.make_of_table(library, &mut place)
            }
            Request::Evaluate { .. } | Request::Extend { .. } | Request::Decode { .. } => {
                self.make_of_values(library, &mut place)
            }
            _ => self.make_of_text(library, &mut place),
        };
        Outcome { number, place, lent }
    }

    fn make_of_table(&self, library: &mut dyn Library, place: &mut usize) -> (u32, Vec<(&'static str, Vec<i64>)>) {
        match self {
            Request::Check { table, records } => {
                let mut records = records.clone();
                let number = library.check(table, &mut records, place);
                (number, vec![("records", fields(&records))])
            }
            Request::Measure { table } => {
                let [mut variables, mut clauses, mut slots] = [PATTERN; 3];
                let number = library.measure(table, &mut variables, &mut clauses, &mut slots, place);
                (number, vec![("variables, clauses, slots", longs(&[variables, clauses, slots]))])
            }
            Request::Write { table, buffers } => {
                let mut lent = buffers.clone();
                let number = library.write(table, &mut lent.records, &mut lent.map, &mut lent.slots, place);
                (number, lent.lent())
            }
            Request::RowClauses { table, slots, row } => {
                let (mut first, mut count) = (SIZE, SIZE);
                let number = library.row_clauses(table, slots, *row, &mut first, &mut count, place);
                (number, vec![("first, count", vec![first as i64, count as i64])])
            }
            _ => unreachable!("the call is of another group"),
        }
    }

    fn make_of_values(&self, library: &mut dyn Library, place: &mut usize) -> (u32, Vec<(&'static str, Vec<i64>)>) {
        match self {
            Request::Evaluate { table, values, results } => {
                let mut results = results.clone();
                let number = library.evaluate(table, values, &mut results, place);
                (number, vec![("results", results)])
            }
            Request::Extend { table, values, model } => {
                let (mut model, mut truth) = (model.clone(), BYTE);
                let number = library.extend(table, values, &mut model, &mut truth, place);
                (number, vec![("model", longs(&model)), ("truth", vec![truth.into()])])
            }
            Request::Decode { table, buffers, model, values } => {
                let (mut lent, mut values) = (buffers.clone(), values.clone());
                let Buffers { records, map, slots } = &mut lent;
                let number = library.decode(table, records, map, slots, model, &mut values, place);
                let mut all = lent.lent();
                all.push(("values", values));
                (number, all)
            }
            _ => unreachable!("the call is of another group"),
        }
    }

    fn make_of_text(&self, library: &mut dyn Library, place: &mut usize) -> (u32, Vec<(&'static str, Vec<i64>)>) {
        match self {
            Request::ReadLines { text, table } => {
                let (mut table, mut read) = (table.clone(), SIZE);
                let number = library.read_lines(text, &mut table, &mut read, place);
                (number, vec![("table", longs(&table)), ("table_read", vec![read as i64])])
            }
            Request::ReadLinesUntilEmpty { text, table } => {
                let (mut table, mut read, mut rest) = (table.clone(), SIZE, SIZE);
                let mut ended = BYTE;
                let number = library.read_lines_until_empty(text, &mut table, &mut read, &mut rest, &mut ended, place);
                let numbers = vec![read as i64, rest as i64, ended.into()];
                (number, vec![("table", longs(&table)), ("table_read, rest, ended", numbers)])
            }
            Request::ReadClaim { text, variables, model } => {
                let (mut model, mut claim) = (model.clone(), BYTE);
                let number = library.read_claim(text, *variables, &mut model, &mut claim, place);
                (number, vec![("model", longs(&model)), ("claim", vec![claim.into()])])
            }
            _ => unreachable!("the call is of another group"),
        }
    }

    /// The call's inputs, so that the case can be tried again.
    pub fn describe(&self) -> String {
        let room = |b: &Buffers| format!("records {}, map {}, slots {}", b.records.len(), b.map.len(), b.slots.len());
        match self {
            Request::Check { table, records } => format!("records {}\n{}", records.len(), lines(table)),
            Request::Measure { table } => lines(table),
            Request::Write { table, buffers } => format!("{}\n{}", room(buffers), lines(table)),
            Request::RowClauses { table, slots, row } => format!("row {row}, slots {}\n{}", slots.len(), lines(table)),
            Request::Evaluate { table, values, results } => {
                format!("values {values:?}, results {}\n{}", results.len(), lines(table))
            }
            Request::Extend { table, values, model } => {
                format!("values {values:?}, model {}\n{}", model.len(), lines(table))
            }
            Request::Decode { table, buffers, model, values } => {
                format!("{}, values {}, model {model:?}\n{}", room(buffers), values.len(), lines(table))
            }
            Request::ReadLines { text, table } | Request::ReadLinesUntilEmpty { text, table } => {
                format!("table {}, text {}", table.len(), text.escape_ascii())
            }
            Request::ReadClaim { text, variables, model } => {
                format!("variables {variables}, model {}, text {}", model.len(), text.escape_ascii())
            }
        }
    }
}

impl Outcome {
    /// Where another outcome differs from this one, the right one.
    pub fn difference(&self, other: &Outcome) -> Option<String> {
        if (self.number, self.place) != (other.number, other.place) {
            let [right, found] = [self, other].map(|o| format!("{} at {}", o.number, o.place));
            return Some(format!("answers {found} and not {right}"));
        }
        let pairs = self.lent.iter().zip(&other.lent);
        pairs.into_iter().find_map(|((name, right), (_, found))| {
            let i = right.iter().zip(found).position(|(r, f)| r != f)?;
            Some(format!("{name}: {} at index {i} and not {}", found[i], right[i]))
        })
    }
}
