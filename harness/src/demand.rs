//! Demand 3, from outside: that the clauses say what the sheet says, tried on a library by exact fractions, by all assignments where there
//! are few variables, and by bought solvers where there are more.

use crate::ask;
use crate::clauses::{holds, meets, Clauses, Model};
use crate::fractions::{worth, Fraction};
use crate::generate::{tables, values};
use crate::library::Library;
use crate::plain::acceptance::{accept, Sheet};
use crate::plain::print::lines;
use crate::random::Random;
use crate::record::{Buffers, Refusal};
use crate::report::Report;
use crate::solvers::Solver;
use std::collections::BTreeSet;

/// Every list of values within the declared bits.
pub fn all_values(sheet: &Sheet) -> Vec<Vec<i64>> {
    let mut lists = vec![vec![]];
    for r in sheet.unknowns() {
        let (least, most) = values::range(&sheet.rows[r]);
        let longer = |list: &Vec<i64>| (least..=most).map(|v| [&list[..], &[v]].concat()).collect::<Vec<_>>();
        lists = lists.iter().flat_map(longer).collect();
    }
    lists
}

/// The number that bits say in two's complement; a single bit of a Boolean is 0 or 1.
fn number_of(model: &[u8], literals: &[i32], sort: u32) -> i64 {
    let sign = literals.len() - 1;
    let weight = |j: usize| if j == sign && sort == 1 { -(1i64 << j) } else { 1 << j };
    (0..=sign).filter(|&j| holds(model, literals[j])).map(weight).sum()
}

/// A table and what the library wrote for it; its clauses are all but the last, and the last.
struct Case {
    table: Vec<u8>,
    sheet: Sheet,
    written: Buffers,
    but_the_last: Clauses,
    last: Vec<i32>,
}

/// The models that carry values: all values, and those of which the sheet is true.
#[derive(Default)]
struct Extensions {
    all: BTreeSet<Model>,
    true_ones: BTreeSet<Model>,
}

impl Case {
    fn new(library: &mut dyn Library, table: Vec<u8>) -> Case {
        let sheet = accept(&table).expect("the generator's tables pass");
        let measured = ask::measure(library, &table).expect("the library accepts what the document accepts");
        let written = ask::write(library, &table).expect("the library writes what it measures");
        let mut but_the_last = written.clauses(measured.variables);
        let last = but_the_last.list.pop().expect("the last row has its unit");
        Case { table, sheet, written, but_the_last, last }
    }

    fn clauses(&self) -> Clauses {
        self.but_the_last.and([self.last.clone()])
    }

    /// What the literals of an unknown are where it has a value.
    fn carrying(&self, list: &[i64]) -> Vec<Vec<i32>> {
        let bits = |(r, &v): (usize, &i64)| {
            let literals = self.written.literals(r).to_vec();
            let unit = move |(j, l): (usize, i32)| vec![if v >> j & 1 == 1 { l } else { -l }];
            literals.into_iter().enumerate().map(unit).collect::<Vec<_>>()
        };
        self.sheet.unknowns().zip(list).flat_map(bits).collect()
    }

    fn tell(&self, list: &[i64]) -> String {
        format!("values {list:?}\n{}", lines(&self.table))
    }
}

/// What must hold at one list of values; answers the model and whether the constraint is true.
fn at_values(library: &mut dyn Library, case: &Case, list: &[i64], report: &mut Report) -> (Model, bool) {
    let results = ask::evaluate(library, &case.table, list).expect("the values are within their bits");
    let (model, truth) = ask::extend(library, &case.table, list).expect("the values are within their bits");
    let exact = worth(&case.sheet.rows, list);
    let records = &case.written.records;
    let same = |r: usize| Fraction::new(results[r].into(), records[r].denominator.into()) == exact[r];
    let range = |r: usize| {
        if records[r].sort == 0 {
            0..2
        } else {
            -1 << (records[r].width - 1)..1 << (records[r].width - 1)
        }
    };
    let fits = |r: usize| range(r).contains(&results[r]);
    let reads = |r: usize| number_of(&model, case.written.literals(r), records[r].sort) == results[r];
    let rows = 0..results.len();
    report.hold("demand 3: rows are worth their exact fractions", rows.clone().all(same), || case.tell(list));
    report.hold("demand 3: rows fit their widths", rows.clone().all(fits), || case.tell(list));
    report.hold("demand 3: bits read as the rows' values", rows.clone().all(reads), || case.tell(list));
    let met = case.but_the_last.met_by(&model);
    report.hold("demand 3: the extension meets every clause but the last", met, || case.tell(list));
    let right = meets(&model, &case.last) == truth && truth == (exact[results.len() - 1] == Fraction::new(1, 1));
    report.hold("demand 3: the last clause is the constraint", right, || case.tell(list));
    (model, truth)
}

/// What must hold at every list of values; answers the models.
fn at_all_values(library: &mut dyn Library, case: &Case, report: &mut Report) -> Extensions {
    let mut extensions = Extensions::default();
    for list in all_values(&case.sheet) {
        let (model, truth) = at_values(library, case, &list, report);
        decodes(library, case, &list, &model, truth, report);
        if truth {
            extensions.true_ones.insert(model.clone());
        }
        extensions.all.insert(model);
    }
    extensions
}

/// A model decodes to its values, or is refused at the last clause.
fn decodes(library: &mut dyn Library, case: &Case, list: &[i64], model: &[u8], truth: bool, report: &mut Report) {
    let found = ask::decode(library, &case.table, model, list.len());
    let right = match truth {
        true => found == Ok(list.to_vec()),
        false => found == Err(Refusal { number: 19, place: case.but_the_last.list.len() + 1 }),
    };
    report.hold("demand 3: decoding gives the values back", right, || case.tell(list));
}

/// All values and all assignments of one table of few variables.
pub fn tiny_table(random: &mut Random, library: &mut dyn Library, report: &mut Report) {
    let taste = tables::tiny(random);
    let case = Case::new(library, tables::table(random, &taste));
    let extensions = at_all_values(library, &case, report);
    let alone = case.but_the_last.met_by_which() == extensions.all;
    let kind = "demand 3: of all assignments, the extensions and no others meet every clause but the last";
    report.hold(kind, alone, || lines(&case.table));
    let models = case.clauses().met_by_which() == extensions.true_ones;
    let kind = "demand 3: of all assignments, the extensions of true values and no others meet all clauses";
    report.hold(kind, models, || lines(&case.table));
}

/// All values of one small table, and all models, by a solver.
pub fn small_table(random: &mut Random, library: &mut dyn Library, solver: Option<&Solver>, report: &mut Report) {
    let taste = tables::small(random, 8);
    let case = Case::new(library, tables::table(random, &taste));
    let extensions = at_all_values(library, &case, report);
    let Some(solver) = solver else { return };
    let kind = "no other assignment meets every clause but the last";
    let found = solver.finds_only(&case.but_the_last, &extensions.all);
    solver.hold(kind, found, || lines(&case.table), report);
    let kind = "the models are the extensions of true values";
    let found = solver.finds_only(&case.clauses(), &extensions.true_ones);
    solver.hold(kind, found, || lines(&case.table), report);
}

/// Some values of one table of any size, and by a solver that no other assignment carries them.
pub fn any_table(random: &mut Random, library: &mut dyn Library, solver: Option<&Solver>, report: &mut Report) {
    let taste = tables::taste(random);
    let case = Case::new(library, tables::table(random, &taste));
    for _ in 0..2 {
        let list = values::values(random, &case.sheet);
        let (model, _) = at_values(library, &case, &list, report);
        let Some(solver) = solver else { continue };
        let with_values = case.but_the_last.and(case.carrying(&list));
        let found = solver.finds_only(&with_values, &BTreeSet::from([model]));
        solver.hold("one assignment carries the values", found, || case.tell(&list), report);
    }
}
