//! From a sheet's lines to its settings, over the library: reads the lines, checks, measures and writes the table, hands the clauses to a solver
//! through a file, decodes the solver's model and prints the exact value of every row.
//!
//!     solve LINES [SOLVER]
//!
//! LINES is a file of bare lines (docs/SHEETS.md), SOLVER a command that takes the name of a DIMACS file and answers in 's' and 'v' lines; cadical
//! without it. The solver is not trusted: decoding tries its model on every clause.
//!
//! Exit status, as that of ./solve: 0 settings were printed; 20 none claimed; 1 the sheet is refused; 2 wrong use, or a file that can't be read or
//! made; 4 the solver can't be run, failed, gave an answer that can't be read, or a false model; 5 the settings could not be written.

use std::env;
use std::fmt::Write as _;
use std::fs::{self, File};
use std::io::{self, Read, Write as _};
use std::path::{Path, PathBuf};
use std::process::{self, Command, ExitCode};

/// The calls of include/fordrambler.h that are needed here, each with slices for pointers and lengths. Rust's slices are never null, and one that
/// may be written overlaps no other. The library asks for nothing else, so the functions are safe.
mod library {
    pub const ROW_BYTES: usize = 8;
    pub const MOST_ROWS: usize = 256;
    pub const TABLE_BYTES: usize = 2048;
    pub const LINE_BYTES: usize = 17;
    pub const MAP_PLACES: usize = 48;
    pub const REFUSED_CLAUSE: u32 = 19;
    pub const SORT_BOOLEAN: u32 = 0;

    /// What is known of one row.
    #[repr(C)]
    #[derive(Clone, Copy, Default)]
    pub struct Record {
        pub sort: u32,
        pub width: u32,
        pub denominator: u32,
        pub first_slot: u32,
        pub slot_count: u32,
    }

    /// Why a call did nothing: the header's number, and the place that goes with it.
    #[derive(Clone, Copy)]
    pub struct Refusal {
        pub number: u32,
        pub place: usize,
    }

    pub struct Counts {
        pub variables: u32,
        pub clauses: u32,
        pub slots: u32,
    }

    /// What writing and decoding fill.
    pub struct Written {
        pub records: Vec<Record>,
        pub map: Vec<i32>,
        pub slots: Vec<i32>,
    }

    #[link(name = "fordrambler_c", kind = "static")]
    extern "C" {
        fn fordrambler_check(
            table: *const u8,
            table_len: usize,
            records: *mut Record,
            records_len: usize,
            place: *mut usize,
        ) -> u32;
        fn fordrambler_measure(
            table: *const u8,
            table_len: usize,
            variables: *mut u32,
            clauses: *mut u32,
            slots: *mut u32,
            place: *mut usize,
        ) -> u32;
        fn fordrambler_write(
            table: *const u8,
            table_len: usize,
            records: *mut Record,
            records_len: usize,
            map: *mut i32,
            map_len: usize,
            slots: *mut i32,
            slots_len: usize,
            place: *mut usize,
        ) -> u32;
        fn fordrambler_evaluate(
            table: *const u8,
            table_len: usize,
            values: *const i64,
            values_len: usize,
            results: *mut i64,
            results_len: usize,
            place: *mut usize,
        ) -> u32;
        fn fordrambler_decode(
            table: *const u8,
            table_len: usize,
            records: *mut Record,
            records_len: usize,
            map: *mut i32,
            map_len: usize,
            slots: *mut i32,
            slots_len: usize,
            model: *const u8,
            model_len: usize,
            values: *mut i64,
            values_len: usize,
            place: *mut usize,
        ) -> u32;
        fn fordrambler_read_lines(
            text: *const u8,
            text_len: usize,
            table: *mut u8,
            table_len: usize,
            table_read: *mut usize,
            place: *mut usize,
        ) -> u32;
    }

    /// Makes a call, which is lent a number for the place.
    fn done(call: impl FnOnce(&mut usize) -> u32) -> Result<(), Refusal> {
        let mut place = 0;
        match call(&mut place) {
            0 => Ok(()),
            number => Err(Refusal { number, place }),
        }
    }

    pub fn check(table: &[u8], records: &mut [Record]) -> Result<(), Refusal> {
        done(|place| unsafe {
            fordrambler_check(table.as_ptr(), table.len(), records.as_mut_ptr(), records.len(), place)
        })
    }

    pub fn measure(table: &[u8]) -> Result<Counts, Refusal> {
        let mut c = Counts { variables: 0, clauses: 0, slots: 0 };
        done(|place| unsafe {
            fordrambler_measure(table.as_ptr(), table.len(), &mut c.variables, &mut c.clauses, &mut c.slots, place)
        })?;
        Ok(c)
    }

    pub fn write(table: &[u8], w: &mut Written) -> Result<(), Refusal> {
        done(|place| unsafe {
            fordrambler_write(
                table.as_ptr(),
                table.len(),
                w.records.as_mut_ptr(),
                w.records.len(),
                w.map.as_mut_ptr(),
                w.map.len(),
                w.slots.as_mut_ptr(),
                w.slots.len(),
                place,
            )
        })
    }

    pub fn evaluate(table: &[u8], values: &[i64], results: &mut [i64]) -> Result<(), Refusal> {
        done(|place| unsafe {
            fordrambler_evaluate(
                table.as_ptr(),
                table.len(),
                values.as_ptr(),
                values.len(),
                results.as_mut_ptr(),
                results.len(),
                place,
            )
        })
    }

    pub fn decode(table: &[u8], w: &mut Written, model: &[u8], values: &mut [i64]) -> Result<(), Refusal> {
        done(|place| unsafe {
            fordrambler_decode(
                table.as_ptr(),
                table.len(),
                w.records.as_mut_ptr(),
                w.records.len(),
                w.map.as_mut_ptr(),
                w.map.len(),
                w.slots.as_mut_ptr(),
                w.slots.len(),
                model.as_ptr(),
                model.len(),
                values.as_mut_ptr(),
                values.len(),
                place,
            )
        })
    }

    /// The table that lines spell.
    pub fn read_lines(text: &[u8]) -> Result<Vec<u8>, Refusal> {
        let mut table = vec![0; TABLE_BYTES];
        let mut read = 0;
        done(|place| unsafe {
            fordrambler_read_lines(text.as_ptr(), text.len(), table.as_mut_ptr(), table.len(), &mut read, place)
        })?;
        table.truncate(read);
        Ok(table)
    }
}

use library::{Counts, Record, Refusal, Written};

/// Why no settings are printed.
enum Failure {
    Refused(Refusal),
    Unusable(String),
    Solver(String),
    Unwritten(io::Error),
    NoneClaimed(String),
}

impl From<Refusal> for Failure {
    fn from(refusal: Refusal) -> Self {
        Failure::Refused(refusal)
    }
}

impl Failure {
    fn unusable(what: impl std::fmt::Display, why: io::Error) -> Self {
        Failure::Unusable(format!("{what}: {why}"))
    }

    /// The exit status, and the words for it. Refusal 19 is the solver's fault; any other number here speaks of the sheet.
    fn told(self) -> (u8, String) {
        match self {
            Failure::Refused(Refusal { number, place }) if number == library::REFUSED_CLAUSE => {
                (4, format!("refused {number} {place}: the solver's model is false"))
            }
            Failure::Refused(Refusal { number, place }) => {
                (1, format!("refused {number} {place} (docs/SHEETS.md says what this means)"))
            }
            Failure::Unusable(why) => (2, why),
            Failure::Solver(why) => (4, why),
            Failure::Unwritten(why) => (5, format!("the settings can't be written: {why}")),
            Failure::NoneClaimed(solver) => (20, format!("none claimed: {solver} says that the clauses have no model")),
        }
    }
}

/// A table with what is known of it.
struct Sheet {
    table: Vec<u8>,
    counts: Counts,
    written: Written,
}

impl Sheet {
    /// Reads the lines. One byte more than the longest table has is enough: a text that is longer is refused, whatever follows.
    fn read(path: &Path) -> Result<Sheet, Failure> {
        let mut text = Vec::new();
        let enough = library::MOST_ROWS * library::LINE_BYTES + 1;
        File::open(path)
            .and_then(|file| file.take(enough as u64).read_to_end(&mut text))
            .map_err(|why| Failure::unusable(path.display(), why))?;
        Ok(Sheet::write(library::read_lines(&text)?)?)
    }

    /// Checks and measures a table, and writes its clauses.
    fn write(table: Vec<u8>) -> Result<Sheet, Refusal> {
        let rows = table.len() / library::ROW_BYTES;
        let mut records = vec![Record::default(); rows];
        library::check(&table, &mut records)?;
        let counts = library::measure(&table)?;
        let (map, slots) = (vec![0; rows * library::MAP_PLACES], vec![0; counts.slots as usize]);
        let mut written = Written { records, map, slots };
        library::write(&table, &mut written)?;
        Ok(Sheet { table, counts, written })
    }

    fn rows(&self) -> usize {
        self.written.records.len()
    }

    /// Unknowns are the rows of kinds 01, 02 and 03.
    fn is_unknown(&self, row: usize) -> bool {
        (1..=3).contains(&self.table[row * library::ROW_BYTES])
    }

    /// The clauses as DIMACS CNF. The 0 that ends a clause ends its line.
    fn dimacs(&self) -> String {
        let mut text = format!("p cnf {} {}\n", self.counts.variables, self.counts.clauses);
        for &slot in &self.written.slots {
            let end = if slot == 0 { '\n' } else { ' ' };
            write!(text, "{slot}{end}").expect("a String takes everything");
        }
        text
    }

    /// The exact value of every row at the settings of a model, which must make every clause true.
    fn values(&mut self, model: &[u8]) -> Result<Vec<i64>, Refusal> {
        let unknowns = (0..self.rows()).filter(|&row| self.is_unknown(row)).count();
        let (mut values, mut results) = (vec![0; unknowns], vec![0; self.rows()]);
        library::decode(&self.table, &mut self.written, model, &mut values)?;
        library::evaluate(&self.table, &values, &mut results)?;
        Ok(results)
    }

    fn shown(&self, results: &[i64]) -> String {
        let line = |(row, result): (usize, &i64)| {
            let what = if self.is_unknown(row) { "setting" } else { "row" };
            let record = self.written.records[row];
            match record.sort {
                library::SORT_BOOLEAN => format!("{what} {row}: {}\n", *result == 1),
                _ => format!("{what} {row}: {result}/{}\n", record.denominator),
            }
        };
        results.iter().enumerate().map(line).collect()
    }
}

/// A folder of its own, which goes with all that is in it.
struct Folder(PathBuf);

impl Folder {
    fn new() -> Result<Folder, Failure> {
        let path = env::temp_dir().join(format!("fordrambler.{}", process::id()));
        fs::create_dir(&path).map_err(|why| Failure::unusable(path.display(), why))?;
        Ok(Folder(path))
    }
}

impl Drop for Folder {
    fn drop(&mut self) {
        // what can't be removed is left; there is nobody to tell
        let _ = fs::remove_dir_all(&self.0);
    }
}

/// What a solver answers: the byte of each variable, or that there is no model.
enum Claim {
    Model(Vec<u8>),
    None,
}

/// Runs the solver on a file. Its exit status must agree with its answer: 10 and 20 by custom, or 0 of a solver that tells nothing by it.
fn run_solver(solver: &Path, file: &Path, variables: u32) -> Result<Claim, Failure> {
    let fault = |why: String| Failure::Solver(format!("{} {why}", solver.display()));
    let output = Command::new(solver).arg(file).stderr(process::Stdio::inherit()).output();
    let output = output.map_err(|why| fault(format!("can't be run: {why}")))?;
    let status = output.status.code().ok_or_else(|| fault("was ended by a signal".into()))?;
    if ![0, 10, 20].contains(&status) {
        return Err(fault(format!("failed with status {status}")));
    }
    let claim = read_answer(&String::from_utf8_lossy(&output.stdout), variables).map_err(&fault)?;
    let expected = if matches!(claim, Claim::Model(_)) { 10 } else { 20 };
    if status != 0 && status != expected {
        return Err(fault(format!("ended with status {status} and answered otherwise")));
    }
    Ok(claim)
}

/// Reads 's' and 'v' lines, in any order, and comments between them.
fn read_answer(text: &str, variables: u32) -> Result<Claim, String> {
    let mut model = vec![0; variables as usize];
    let (mut claims_model, mut claims_none, mut gives_values) = (false, false, false);
    for line in text.lines() {
        match line {
            "s SATISFIABLE" => claims_model = true,
            "s UNSATISFIABLE" => claims_none = true,
            _ if line.starts_with('v') => {
                take_literals(&line[1..], &mut model)?;
                gives_values = true;
            }
            _ if line.is_empty() || line.starts_with('c') => {}
            _ => return Err(format!("answered with the line {line:?}")),
        }
    }
    match (claims_model, claims_none) {
        (true, false) => Ok(Claim::Model(model)),
        (false, true) if !gives_values => Ok(Claim::None),
        (false, false) => Err("answered neither SATISFIABLE nor UNSATISFIABLE".into()),
        _ => Err("contradicts itself".into()),
    }
}

/// Takes a line's literals into the model. A variable that no line names stays false: whatever is taken here, decoding tries it.
fn take_literals(words: &str, model: &mut [u8]) -> Result<(), String> {
    for word in words.split_ascii_whitespace() {
        let literal: i64 = word.parse().map_err(|_| format!("answered with {word:?} for a literal"))?;
        if literal == 0 {
            continue;
        }
        let index = usize::try_from(literal.unsigned_abs() - 1).unwrap_or(usize::MAX);
        *model.get_mut(index).ok_or_else(|| format!("names variable {}", literal.unsigned_abs()))? =
            u8::from(literal > 0);
    }
    Ok(())
}

/// Hands the clauses to the solver through a file.
fn solve(sheet: &Sheet, solver: &Path) -> Result<Vec<u8>, Failure> {
    let folder = Folder::new()?;
    let file = folder.0.join("clauses.cnf");
    fs::write(&file, sheet.dimacs()).map_err(|why| Failure::unusable(file.display(), why))?;
    match run_solver(solver, &file, sheet.counts.variables)? {
        Claim::Model(model) => Ok(model),
        Claim::None => Err(Failure::NoneClaimed(solver.display().to_string())),
    }
}

fn run(words: &[PathBuf]) -> Result<(), Failure> {
    let (path, solver) = match words {
        [path] => (path, Path::new("cadical")),
        [path, solver] => (path, solver.as_path()),
        _ => return Err(Failure::Unusable("usage: solve LINES [SOLVER]".into())),
    };
    let mut sheet = Sheet::read(path)?;
    let model = solve(&sheet, solver)?;
    let results = sheet.values(&model)?;
    let mut out = io::stdout();
    let written = out.write_all(sheet.shown(&results).as_bytes()).and_then(|()| out.flush());
    written.map_err(Failure::Unwritten)
}

fn main() -> ExitCode {
    let words: Vec<PathBuf> = env::args_os().skip(1).map(PathBuf::from).collect();
    match run(&words) {
        Ok(()) => ExitCode::SUCCESS,
        Err(failure) => {
            let (status, why) = failure.told();
            let _ = writeln!(io::stderr(), "solve: {why}");
            ExitCode::from(status)
        }
    }
}
