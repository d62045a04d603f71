//! The three programs, as functions from their input to their output.

use super::acceptance::{accept, Sheet};
use super::calls::{decode, write, Room};
use super::lines::{read_lines, read_lines_until_empty, ROOM};
use super::print;
use super::solver_text::read_claim;
use super::values::numerators;
use crate::record::Refusal;

/// The slots that each program lends.
pub const SLOTS: usize = 16_384;
/// The bytes that each program reads at most.
pub const INPUT: usize = 65_536;

pub fn clauses(input: &[u8]) -> String {
    clauses_or_refusal(read_up_to(input)).unwrap_or_else(print::refused)
}

pub fn settings(input: &[u8]) -> String {
    claimed_or_refusal(read_up_to(input), print::settings).unwrap_or_else(print::refused)
}

pub fn values(input: &[u8]) -> String {
    let print_values = |sheet: &Sheet, settings: &[i64]| print::values(sheet, &numerators(sheet, settings));
    claimed_or_refusal(read_up_to(input), print_values).unwrap_or_else(print::refused)
}

fn read_up_to(input: &[u8]) -> &[u8] {
    &input[..input.len().min(INPUT)]
}

fn room(sheet: &Sheet) -> Room {
    Room { records: sheet.rows.len(), map: 48 * sheet.rows.len(), slots: SLOTS }
}

fn clauses_or_refusal(input: &[u8]) -> Result<String, Refusal> {
    let table = read_lines(input, ROOM)?;
    let sheet = accept(&table)?;
    let written = write(&table, room(&sheet))?;
    Ok(print::dimacs(sheet.counts, &written.slots))
}

/// What is printed of the settings that a solver's text claims.
fn claimed_or_refusal(input: &[u8], print: impl Fn(&Sheet, &[i64]) -> String) -> Result<String, Refusal> {
    let read = read_lines_until_empty(input, ROOM)?;
    let sheet = accept(&read.table)?;
    write(&read.table, room(&sheet))?;
    let variables = sheet.counts.variables;
    let rest = &input[read.ended.unwrap_or(input.len())..];
    let Some(model) = read_claim(rest, variables, variables as usize)? else {
        return Ok("none claimed\n".to_string());
    };
    let settings = decode(&read.table, room(&sheet), &model, sheet.rows.len())?.values?;
    Ok(print(&sheet, &settings))
}
