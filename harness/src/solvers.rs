//! Bought solvers: what one finds decodes to values of which the sheet is true, what it doesn't find isn't there, and with each model
//! blocked that it has found it finds all of them. A solver may fail or be wrong, too; then this is what is told.

use crate::ask;
use crate::clauses::{Clauses, Model};
use crate::demand::all_values;
use crate::fractions::{worth, Fraction};
use crate::generate::tables;
use crate::library::{Library, Programs};
use crate::plain::acceptance::{accept, Sheet};
use crate::plain::print;
use crate::random::Random;
use crate::report::Report;
use std::collections::BTreeSet;
use std::path::PathBuf;
use std::process::{Command, Output};

/// After so many seconds a solver is stopped. These clauses take it milliseconds.
const SECONDS: &str = "60";

/// The models at most that a solver has to find one by one. More are blocked from the start, and it is asked for another.
const ONE_BY_ONE: usize = 8;

/// A solver that is installed, and where its files go.
pub struct Solver {
    pub command: String,
    pub folder: PathBuf,
}

impl Solver {
    /// The model found, or none.
    pub fn solve(&self, dimacs: &str, variables: usize) -> Result<Option<Model>, String> {
        let (status, text) = self.answer(dimacs)?;
        let start: String = text.chars().take(200).collect();
        read(status, &text, variables).map_err(|why| format!("{why}: status {status:?}, {start:?}"))
    }

    /// Runs the solver: its status, and the text that tells what it found.
    fn answer(&self, dimacs: &str) -> Result<(Option<i32>, String), String> {
        let (input, output) = (self.folder.join("clauses.cnf"), self.folder.join("model.txt"));
        std::fs::write(&input, dimacs).map_err(|e| format!("{} can't be written: {e}", input.display()))?;
        // what another run has left must not be taken for an answer
        let _ = std::fs::remove_file(&output);
        let mut command = Command::new("timeout");
        command.arg(SECONDS).arg(&self.command);
        match self.command.as_str() {
            "minisat" => command.arg("-verb=0").arg(&input).arg(&output),
            "cadical" => command.arg("-q").arg(&input),
            "cryptominisat5" => command.arg("--verb=0").arg(&input),
            _ => command.arg(&input),
        };
        let Output { status, stdout, stderr } = command.output().map_err(|e| format!("it does not run: {e}"))?;
        let text = match self.command.as_str() {
            "minisat" => std::fs::read(&output)
                .map_err(|e| format!("it leaves no answer ({e}): {status}, {:?}", String::from_utf8_lossy(&stderr)))?,
            _ => stdout,
        };
        Ok((status.code(), String::from_utf8_lossy(&text).into_owned()))
    }

    /// Another model of the clauses than these, which are blocked; or none.
    fn another(&self, clauses: &Clauses, than: &BTreeSet<Model>) -> Result<Option<Model>, String> {
        let clauses = clauses.but(than);
        let found = self.solve(&clauses.dimacs(), clauses.variables)?;
        match found {
            Some(model) if !clauses.met_by(&model) => Err(format!("its model makes a clause false: {model:?}")),
            found => Ok(found),
        }
    }

    /// Whether the clauses have these models and no others; each is known to be one.
    pub fn finds_only(&self, clauses: &Clauses, models: &BTreeSet<Model>) -> Result<(), String> {
        let mut found = if models.len() > ONE_BY_ONE { models.clone() } else { BTreeSet::new() };
        while let Some(model) = self.another(clauses, &found)? {
            if !models.contains(&model) {
                return Err(format!("it finds another model: {model:?}"));
            }
            found.insert(model);
        }
        match models.len() - found.len() {
            0 => Ok(()),
            missing => Err(format!("it does not find {missing} of {} models", models.len())),
        }
    }

    /// Counts one comparison of this solver.
    pub fn hold(&self, kind: &str, found: Result<(), String>, case: impl FnOnce() -> String, report: &mut Report) {
        let difference = found.err().map(|why| format!("{why}\n{}", case()));
        report.count(&format!("{}: {kind}", self.command), 0, difference);
    }
}

/// What a solver's answer says, if its status and its words agree.
fn read(status: Option<i32>, text: &str, variables: usize) -> Result<Option<Model>, String> {
    let lines = || text.lines().map(str::trim_end).filter(|line| !line.starts_with('c'));
    let says = |words: [&str; 2]| lines().any(|line| words.contains(&line));
    match (status, says(["s SATISFIABLE", "SAT"]), says(["s UNSATISFIABLE", "UNSAT"])) {
        (Some(10), true, false) => model(lines(), variables).map(Some),
        (Some(20), false, true) => Ok(None),
        (Some(124), ..) => Err(format!("no answer within {SECONDS} seconds")),
        _ => Err("its answer can't be understood".to_string()),
    }
}

/// The model that an answer's lines tell. minisat leaves out variables behind the last one that stands in a clause, such as those of an
/// unknown that no row uses: these may be anything, and are false here.
fn model<'a>(lines: impl Iterator<Item = &'a str>, variables: usize) -> Result<Model, String> {
    let mut model = vec![0; variables];
    for literal in lines.flat_map(str::split_whitespace).filter_map(|word| word.parse::<i32>().ok()) {
        match model.get_mut((literal.unsigned_abs() as usize).wrapping_sub(1)) {
            Some(byte) => *byte = u8::from(literal > 0),
            None if literal == 0 => {}
            None => return Err(format!("its model has a variable {}", literal.unsigned_abs())),
        }
    }
    Ok(model)
}

fn is_true(sheet: &Sheet, list: &[i64]) -> bool {
    worth(&sheet.rows, list).last() == Some(&Fraction::new(1, 1))
}

/// One random table, by each solver, from the clause program to the settings program.
pub fn round(
    random: &mut Random,
    solvers: &[Solver],
    library: &mut dyn Library,
    programs: &mut dyn Programs,
    report: &mut Report,
) {
    let taste = tables::small(random, 12);
    let table = tables::table(random, &taste);
    let sheet = accept(&table).expect("the generator's tables pass");
    let text = print::lines(&table);
    let dimacs = String::from_utf8(programs.clauses(text.as_bytes())).expect("the program prints text");
    for solver in solvers {
        let (kind, found) = match solver.solve(&dimacs, sheet.counts.variables as usize) {
            Ok(Some(model)) => {
                ("its models decode to true settings", decodes(library, programs, &table, &sheet, &model))
            }
            Ok(None) => ("where it finds none, there are none", none(&sheet)),
            Err(why) => ("it answers", Err(why)),
        };
        solver.hold(kind, found, || text.clone(), report);
    }
}

/// Whether the library and the programs turn a model into values of which the sheet is true, and into what the rows are worth then.
fn decodes(
    library: &mut dyn Library,
    programs: &mut dyn Programs,
    table: &[u8],
    sheet: &Sheet,
    model: &[u8],
) -> Result<(), String> {
    let told = |what: &str| format!("{what}, for its model {model:?}");
    let found = ask::decode(library, table, model, sheet.unknowns().count())
        .map_err(|refusal| told(&format!("refused {} {}", refusal.number, refusal.place)))?;
    let results = ask::evaluate(library, table, &found).map_err(|_| told("values are decoded that can't be"))?;
    if results.last() != Some(&1) || !is_true(sheet, &found) {
        return Err(told("values are decoded of which the sheet is false"));
    }
    let input = format!("{}\n{}", print::lines(table), print::model(model)).into_bytes();
    if programs.settings(&input) != print::settings(sheet, &found).into_bytes() {
        return Err(told("the settings program prints something else than the library decodes"));
    }
    if programs.values(&input) != print::values(sheet, &results).into_bytes() {
        return Err(told("the values program prints something else than the library evaluates"));
    }
    Ok(())
}

/// Whether the sheet is true of no values.
fn none(sheet: &Sheet) -> Result<(), String> {
    match all_values(sheet).iter().find(|list| is_true(sheet, list)) {
        Some(list) => Err(format!("it finds none, and the sheet is true of {list:?}")),
        None => Ok(()),
    }
}

#[cfg(test)]
mod tests {
    use super::{read, Solver};
    use crate::clauses::Clauses;
    use std::collections::BTreeSet;
    use std::os::unix::fs::PermissionsExt;

    #[test]
    fn answers_are_read() {
        assert_eq!(read(Some(10), "c 3 hello\ns SATISFIABLE\nv -1 2\nv 3 0\n", 3), Ok(Some(vec![0, 1, 1])));
        assert_eq!(read(Some(10), "SAT\n1 -2 0\n", 3), Ok(Some(vec![1, 0, 0])));
        assert_eq!(read(Some(20), "s UNSATISFIABLE\n", 3), Ok(None));
        assert_eq!(read(Some(20), "UNSAT\n", 3), Ok(None));
    }

    #[test]
    fn wrong_answers_are_told() {
        for (status, text) in [
            (Some(20), "s SATISFIABLE\nv 1 0\n"),
            (Some(10), "s UNSATISFIABLE\n"),
            (Some(10), "s SATISFIABLE\ns UNSATISFIABLE\n"),
            (Some(10), "s SATISFIABLE\nv 4 0\n"),
            (Some(10), ""),
            (Some(0), "s UNKNOWN\n"),
            (Some(124), ""),
            (None, "s UNSATISFIABLE\n"),
        ] {
            assert!(read(status, text, 3).is_err(), "{text}");
        }
    }

    /// Why a solver of one line of shell is wrong about `1 or 2`, which has three models, of which two are expected.
    fn finds(name: &str, line: &str) -> String {
        let folder = std::env::temp_dir().join(format!("harness-{name}-{}", std::process::id()));
        std::fs::create_dir_all(&folder).expect("a folder can be made");
        let script = folder.join("solver");
        std::fs::write(&script, format!("#!/bin/sh\n{line}\n")).expect("it can be written");
        std::fs::set_permissions(&script, PermissionsExt::from_mode(0o755)).expect("it can be a command");
        let solver = Solver { command: script.display().to_string(), folder: folder.clone() };
        let models = BTreeSet::from([vec![0, 1], vec![1, 0]]);
        let found = solver.finds_only(&Clauses { variables: 2, list: vec![vec![1, 2]] }, &models);
        std::fs::remove_dir_all(folder).expect("it can be removed");
        found.expect_err("no solver of one line is right")
    }

    #[test]
    fn wrong_solvers_are_told() {
        assert!(finds("dies", "exit 3").starts_with("its answer can't be understood"));
        assert!(finds("gives-up", "echo s UNSATISFIABLE; exit 20").starts_with("it does not find 2 of 2 models"));
        assert!(finds("lies", "echo s SATISFIABLE; echo v -1 -2 0; exit 10").starts_with("its model makes a clause"));
        assert!(finds("repeats", "echo s SATISFIABLE; echo v 1 -2 0; exit 10").starts_with("its model makes a clause"));
        assert!(finds("goes-on", "echo s SATISFIABLE; echo v 1 2 0; exit 10").starts_with("it finds another model"));
    }
}
