//! Document 01 once more, in plain Rust with exact arithmetic, written from the document alone.

pub mod acceptance;
pub mod calls;
pub mod gates;
pub mod lent;
pub mod lines;
pub mod numbers;
pub mod print;
pub mod programs;
pub mod row;
pub mod solver_text;
pub mod steps;
pub mod tally;
pub mod values;
