//! The texts that the programs print.

use super::acceptance::{Counts, Sheet};
use crate::record::Refusal;
use std::fmt::Write;

/// DIMACS CNF.
pub fn dimacs(counts: Counts, slots: &[i32]) -> String {
    let mut text = format!("p cnf {} {}\n", counts.variables, counts.clauses);
    for literal in slots {
        let end = if *literal == 0 { '\n' } else { ' ' };
        write!(text, "{literal}{end}").expect("a string takes all");
    }
    text
}

/// Row, numerator and denominator of each unknown.
pub fn settings(sheet: &Sheet, values: &[i64]) -> String {
    worth(sheet, sheet.unknowns().zip(values))
}

/// Row, numerator and denominator of every row.
pub fn values(sheet: &Sheet, numerators: &[i64]) -> String {
    worth(sheet, (0..).zip(numerators))
}

fn worth<'a>(sheet: &Sheet, rows: impl Iterator<Item = (usize, &'a i64)>) -> String {
    rows.map(|(r, value)| format!("{r} {value} {}\n", sheet.records[r].denominator)).collect()
}

pub fn refused(refusal: Refusal) -> String {
    format!("refused {} {}\n", refusal.number, refusal.place)
}

/// A table as lines.
pub fn lines(table: &[u8]) -> String {
    let line = |row: &[u8]| row.iter().map(|byte| format!("{byte:02x}")).collect::<String>() + "\n";
    table.chunks(8).map(line).collect()
}

/// A model as a solver prints it.
pub fn model(model: &[u8]) -> String {
    let word = |(i, byte): (usize, &u8)| format!("{}{} ", if *byte == 1 { "" } else { "-" }, i + 1);
    let words: String = model.iter().enumerate().map(word).collect();
    format!("s SATISFIABLE\nv {words}0\n")
}
