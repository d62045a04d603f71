//! Runs the comparisons. What is compared comes in the environment, as harness/run sets it:
//! SEED; SERVER, the command of the server that makes the library's calls; CLAUSES, SETTINGS and VALUES, the commands of the programs;
//! SOLVERS, the names of solvers; FOLDER, for files in passing; ROUNDS, how much to do. What is not set is left out, and said so.

use harness::compare::{calls, programs};
use harness::demand;
use harness::library::{Library, Plain, Programs};
use harness::piped::Piped;
use harness::processes::Processes;
use harness::random::Random;
use harness::report::Report;
use harness::solvers::{self, Solver};
use std::path::PathBuf;
use std::process::ExitCode;

/// How often each refusal must have occurred for a run to count.
const OFTEN: u64 = 20;

/// Differences after which calls are compared no further.
const ENOUGH: usize = 20;

fn words(name: &str) -> Option<Vec<String>> {
    let value = std::env::var(name).ok()?;
    let words: Vec<String> = value.split_whitespace().map(String::from).collect();
    (!words.is_empty()).then_some(words)
}

fn number(name: &str, otherwise: u64) -> u64 {
    words(name).map_or(otherwise, |w| w[0].parse().unwrap_or_else(|_| panic!("{name} is a number")))
}

fn main() -> ExitCode {
    let seed = number("SEED", 1);
    let rounds = number("ROUNDS", 2000);
    println!("harness: SEED={seed} ROUNDS={rounds}");
    let mut report = Report::default();
    compare_calls(seed, rounds, &mut report);
    compare_programs(seed, rounds / 10, &mut report);
    if report.differences.is_empty() {
        let solvers = solvers();
        try_demand(seed, rounds / 20, &solvers, &mut report);
        try_solvers(seed, rounds / 30, &solvers, &mut report);
    } else {
        println!("skipped: demand 3 and solvers (the calls or the programs differ already)");
    }
    report.print();
    finish(&report)
}

fn library() -> Option<Piped> {
    words("SERVER").map(|command| Piped::start(&command))
}

/// The programs; the command of one that is not set has no words.
fn processes() -> Processes {
    let [clauses, settings, values] = ["CLAUSES", "SETTINGS", "VALUES"].map(|name| words(name).unwrap_or_default());
    Processes { clauses, settings, values }
}

/// The solvers that are set.
fn solvers() -> Vec<Solver> {
    let (Some(names), Some(folder)) = (words("SOLVERS"), words("FOLDER")) else {
        println!("skipped: solvers (SOLVERS or FOLDER is not set)");
        return vec![];
    };
    names.into_iter().map(|command| Solver { command, folder: PathBuf::from(&folder[0]) }).collect()
}

fn compare_calls(seed: u64, rounds: u64, report: &mut Report) {
    let Some(mut library) = library() else {
        println!("skipped: calls of the library (SERVER is not set)");
        return;
    };
    calls::largest(&mut library, report);
    let mut random = Random::new(seed);
    for _ in 0..rounds {
        calls::round(&mut random, &mut library, report);
        if report.differences.len() > ENOUGH {
            break;
        }
    }
}

fn compare_programs(seed: u64, rounds: u64, report: &mut Report) {
    let mut processes = processes();
    let mut random = Random::new(seed ^ 1 << 32);
    let of: [(&str, programs::Comparison); 3] =
        [("CLAUSES", programs::clauses), ("SETTINGS", programs::settings), ("VALUES", programs::values)];
    for (name, compare) in of {
        if words(name).is_none() {
            println!("skipped: a program ({name} is not set)");
            continue;
        }
        (0..rounds).for_each(|_| compare(&mut random, &mut processes, report));
    }
}

fn try_demand(seed: u64, rounds: u64, solvers: &[Solver], report: &mut Report) {
    let mut of: Vec<Box<dyn Library>> = vec![Box::new(Plain)];
    match library() {
        Some(library) => of.push(Box::new(library)),
        None => {
            println!("skipped: demand 3 on the library (SERVER is not set); it is tried on the plain implementation")
        }
    }
    for mut library in of {
        let mut random = Random::new(seed ^ 2 << 32);
        // solvers take long: one in every second round, each in its turn
        let mut turns = solvers.iter().cycle();
        for round in 0..rounds {
            let solver = if round % 2 == 0 { turns.next() } else { None };
            (0..4).for_each(|_| demand::tiny_table(&mut random, &mut *library, report));
            demand::small_table(&mut random, &mut *library, solver, report);
            demand::any_table(&mut random, &mut *library, solver, report);
        }
    }
}

fn try_solvers(seed: u64, rounds: u64, solvers: &[Solver], report: &mut Report) {
    if solvers.is_empty() {
        return;
    }
    let mut library: Box<dyn Library> = match library() {
        Some(library) => Box::new(library),
        None => {
            println!("solvers: the plain implementation decodes (SERVER is not set)");
            Box::new(Plain)
        }
    };
    let mut programs: Box<dyn Programs> = match ["CLAUSES", "SETTINGS", "VALUES"].map(words) {
        [Some(_), Some(_), Some(_)] => Box::new(processes()),
        _ => {
            println!("solvers: the plain implementation stands for the programs (one is not set)");
            Box::new(Plain)
        }
    };
    let mut random = Random::new(seed ^ 3 << 32);
    for _ in 0..rounds {
        solvers::round(&mut random, solvers, &mut *library, &mut *programs, report);
    }
}

fn finish(report: &Report) -> ExitCode {
    for difference in report.differences.iter().take(5) {
        println!("DIFFERENCE {difference}");
    }
    // without a library there is nothing that refuses
    let rare = if words("SERVER").is_some() { report.rare(OFTEN) } else { vec![] };
    if !rare.is_empty() {
        println!("refusals {rare:?} occurred less than {OFTEN} times: more rounds are needed");
    }
    println!("harness: {} comparisons, {} differences", report.comparisons(), report.differences.len());
    if report.differences.is_empty() && rare.is_empty() && report.comparisons() > 0 {
        ExitCode::SUCCESS
    } else {
        ExitCode::FAILURE
    }
}
