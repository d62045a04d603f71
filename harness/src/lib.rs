//! Evidence from outside: document 01 implemented once more, and everything that is compared with it.

pub mod ask;
pub mod clauses;
pub mod compare;
pub mod demand;
pub mod fractions;
pub mod generate;
pub mod library;
pub mod piped;
pub mod plain;
pub mod processes;
pub mod random;
pub mod record;
pub mod report;
pub mod solvers;
