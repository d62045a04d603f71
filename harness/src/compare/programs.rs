//! The programs, on random and damaged texts.

use super::any_table;
use crate::generate::{models, tables, texts};
use crate::library::{Plain, Programs};
use crate::plain::acceptance::accept;
use crate::plain::print;
use crate::plain::programs::SLOTS;
use crate::random::Random;
use crate::report::Report;

/// Compares one program once.
pub type Comparison = fn(&mut Random, &mut dyn Programs, &mut Report);

/// Compares each program once.
pub fn round(random: &mut Random, programs: &mut dyn Programs, report: &mut Report) {
    clauses(random, programs, report);
    settings(random, programs, report);
    values(random, programs, report);
}

pub fn clauses(random: &mut Random, programs: &mut dyn Programs, report: &mut Report) {
    let table = table(random);
    let input = if random.percent(50) { print::lines(&table).into() } else { texts::lines(random, &table) };
    let (right, found) = (Plain.clauses(&input), programs.clauses(&input));
    compare("program clauses", &input, right, found, report);
}

pub fn settings(random: &mut Random, programs: &mut dyn Programs, report: &mut Report) {
    let input = claimed(random);
    let (right, found) = (Plain.settings(&input), programs.settings(&input));
    compare("program settings", &input, right, found, report);
}

pub fn values(random: &mut Random, programs: &mut dyn Programs, report: &mut Report) {
    let input = claimed(random);
    let (right, found) = (Plain.values(&input), programs.values(&input));
    compare("program values", &input, right, found, report);
}

/// A table's lines, an empty line and a solver's text, right or damaged.
fn claimed(random: &mut Random) -> Vec<u8> {
    let table = table(random);
    let model = match accept(&table) {
        Ok(sheet) if random.percent(80) => models::model(random, &table, &sheet),
        Ok(sheet) => {
            let right = models::model(random, &table, &sheet);
            models::turned(random, right)
        }
        Err(_) => vec![1; random.below(12)],
    };
    if random.percent(40) {
        format!("{}\n{}", print::lines(&table), print::model(&model)).into()
    } else {
        texts::settings_input(random, &table, &model)
    }
}

fn table(random: &mut Random) -> Vec<u8> {
    if random.percent(5) {
        at_the_limit(random)
    } else {
        any_table(random)
    }
}

/// A table for which the slots that the programs lend are just enough, or just too few.
fn at_the_limit(random: &mut Random) -> Vec<u8> {
    let more = random.pick(&[0, 0, 2]);
    tables::of_slots(random, SLOTS + more)
}

fn compare(kind: &'static str, input: &[u8], right: Vec<u8>, found: Vec<u8>, report: &mut Report) {
    let differs = (right != found).then(|| {
        let (expected, printed) = first_difference(&right, &found);
        format!("prints {printed:?} and not {expected:?} for\n{}", input.escape_ascii())
    });
    report.count(kind, refusal(&right), differs);
}

/// The first lines in which two texts differ; the texts' ends count as lines.
fn first_difference(right: &[u8], found: &[u8]) -> (String, String) {
    let lines = |text: &[u8]| -> Vec<String> {
        let lines = text.split_inclusive(|&b| b == b'\n').map(|line| String::from_utf8_lossy(line).into_owned());
        lines.chain(std::iter::once("nothing more".to_string())).collect()
    };
    let pairs = lines(right).into_iter().zip(lines(found));
    pairs.into_iter().find(|(r, f)| r != f).unwrap_or_default()
}

/// The number of the refusal that a program printed, or 0.
fn refusal(output: &[u8]) -> u32 {
    let text = String::from_utf8_lossy(output);
    let number = text.strip_prefix("refused ").and_then(|rest| rest.split(' ').next()?.parse().ok());
    number.unwrap_or(0)
}
