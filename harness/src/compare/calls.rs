//! Every call, on random tables, values, models and texts, in buffers of all lengths.

use super::any_table;
use super::request::Request;
use crate::generate::tables::products;
use crate::generate::{enough, length, models, texts, values};
use crate::library::{Library, Plain};
use crate::plain::acceptance::{accept, Counts, Sheet};
use crate::plain::calls::extend;
use crate::plain::lines::ROOM;
use crate::random::Random;
use crate::record::{Buffers, Record};
use crate::report::Report;
use std::any::Any;
use std::panic::{catch_unwind, AssertUnwindSafe};

/// What buffers are filled with before a call.
const SLOT: i32 = 0x5a5a_5a5a;
const LONG: i64 = 0x5a5a_5a5a_5a5a_5a5a;
const BYTE: u8 = 0x5a;
const RECORD: Record = Record { sort: 90, width: 91, denominator: 92, first_slot: 93, slot_count: 94 };

/// Compares one call. A call that panics differs: a server that has died, a stray write.
pub fn compare(request: &Request, library: &mut dyn Library, report: &mut Report) {
    let right = request.make(&mut Plain);
    let difference = match catch_unwind(AssertUnwindSafe(|| request.make(library))) {
        Ok(found) => right.difference(&found),
        Err(cause) => Some(format!("fails: {}", message(&*cause))),
    };
    let difference = difference.map(|d| format!("{d}\n{}", request.describe()));
    report.count(request.name(), right.number, difference);
}

fn message(cause: &dyn Any) -> String {
    let text = cause.downcast_ref::<String>().cloned();
    text.or(cause.downcast_ref::<&str>().map(|s| s.to_string())).unwrap_or_default()
}

/// Compares every call once, on one random table.
pub fn round(random: &mut Random, library: &mut dyn Library, report: &mut Report) {
    let table = any_table(random);
    let sheet = accept(&table).ok();
    for request in of_table(random, &table, sheet.as_ref()) {
        compare(&request, library, report);
    }
    for request in of_values(random, &table, sheet.as_ref()) {
        compare(&request, library, report);
    }
    for request in of_text(random, &table, sheet.as_ref()) {
        compare(&request, library, report);
    }
}

/// Compares the calls of one table on 256 rows that want 19 million slots: a model of it, and one with a bit turned.
pub fn largest(library: &mut dyn Library, report: &mut Report) {
    let table = products(253);
    let sheet = accept(&table).expect("the table passes");
    let (rows, slots, variables) = (sheet.rows.len(), sheet.counts.slots as usize, sheet.counts.variables as usize);
    let values = vec![4_000_000, 3_000_000];
    let (model, truth) = extend(&table, &values, variables).expect("the values fit");
    assert!(truth, "the values meet the table");
    let mut turned = model.clone();
    turned[variables / 2] ^= 1;
    let table = || table.clone();
    let buffers = || Buffers { records: vec![RECORD; rows], map: vec![SLOT; 48 * rows], slots: vec![SLOT; slots] };
    let decode = |model| Request::Decode { table: table(), buffers: buffers(), model, values: vec![LONG; 2] };
    let requests = [
        Request::Check { table: table(), records: vec![RECORD; rows] },
        Request::Measure { table: table() },
        Request::Write { table: table(), buffers: buffers() },
        Request::RowClauses { table: table(), slots: vec![SLOT; slots], row: 254 },
        Request::Evaluate { table: table(), values: values.clone(), results: vec![LONG; rows] },
        Request::Extend { table: table(), values, model: vec![BYTE; variables] },
        decode(model),
        decode(turned),
    ];
    requests.iter().for_each(|request| compare(request, library, report));
}

/// The rows and counts that buffers are made for; those of a refused table are anything.
fn needs(random: &mut Random, table: &[u8], sheet: Option<&Sheet>) -> (usize, Counts) {
    match sheet {
        Some(sheet) => (sheet.rows.len(), sheet.counts),
        None => {
            let any = Counts { variables: 9, clauses: 26, slots: 100 };
            (random.below(table.len() / 8 + 2), any)
        }
    }
}

fn buffers(random: &mut Random, rows: usize, slots: usize) -> Buffers {
    // at most one of the three is short, or all are as they come
    let short = random.below(8);
    let mut of = |which: usize, needed: usize| match short {
        7 => length(random, needed),
        _ if short == which => needed - 1 - random.below(needed),
        _ => enough(random, needed),
    };
    let (records, map, slots) = (of(0, rows.max(1)), of(1, 48 * rows.max(1)), of(2, slots));
    Buffers { records: vec![RECORD; records], map: vec![SLOT; map], slots: vec![SLOT; slots] }
}

fn of_table(random: &mut Random, table: &[u8], sheet: Option<&Sheet>) -> Vec<Request> {
    let (rows, counts) = needs(random, table, sheet);
    let table = || table.to_vec();
    let slots = counts.slots as usize;
    let row = random.pick(&[rows / 2, rows.saturating_sub(1), rows, rows + 1, 1 << 31]) as u32;
    let row = if random.percent(50) { random.below(rows.max(1)) as u32 } else { row };
    vec![
        Request::Check { table: table(), records: vec![RECORD; length(random, rows)] },
        Request::Measure { table: table() },
        Request::Write { table: table(), buffers: buffers(random, rows, slots) },
        Request::RowClauses { table: table(), slots: vec![SLOT; length(random, slots)], row },
    ]
}

/// Values for a table: often right; for a refused table, anything.
fn some_values(random: &mut Random, table: &[u8], sheet: Option<&Sheet>) -> Vec<i64> {
    match sheet {
        Some(sheet) if random.percent(65) => values::likely_true(random, table, sheet),
        Some(sheet) => values::damaged(random, sheet),
        None => vec![0; random.below(3)],
    }
}

fn of_values(random: &mut Random, table: &[u8], sheet: Option<&Sheet>) -> Vec<Request> {
    let (rows, counts) = needs(random, table, sheet);
    let [first, second] = [(); 2].map(|()| some_values(random, table, sheet));
    let model = match sheet {
        Some(sheet) => models::any(random, table, sheet),
        None => vec![1; random.below(12)],
    };
    let unknowns = sheet.map_or(3, |s| s.unknowns().count());
    let slots = counts.slots as usize;
    let lent = if random.percent(70) {
        Buffers { records: vec![RECORD; rows], map: vec![SLOT; 48 * rows], slots: vec![SLOT; slots] }
    } else {
        buffers(random, rows, slots)
    };
    let mut room = |needed: usize| length(random, needed);
    let (results, extended, decoded) = (room(rows), room(counts.variables as usize), room(unknowns));
    let table = || table.to_vec();
    vec![
        Request::Evaluate { table: table(), values: first, results: vec![LONG; results] },
        Request::Extend { table: table(), values: second, model: vec![BYTE; extended] },
        Request::Decode { table: table(), buffers: lent, model, values: vec![LONG; decoded] },
    ]
}

fn of_text(random: &mut Random, table: &[u8], sheet: Option<&Sheet>) -> Vec<Request> {
    let text = texts::lines(random, table);
    let model = match sheet {
        Some(sheet) => models::model(random, table, sheet),
        None => vec![1; random.below(12)],
    };
    let until_empty =
        if random.percent(50) { texts::settings_input(random, table, &model) } else { texts::lines(random, table) };
    let claimed = texts::solver_text(random, &model);
    let variables = model.len() as u32;
    let [room, room_too] = [ROOM, ROOM].map(|needed| length(random, needed));
    vec![
        Request::ReadLines { text, table: vec![BYTE; room] },
        Request::ReadLinesUntilEmpty { text: until_empty, table: vec![BYTE; room_too] },
        Request::ReadClaim { text: claimed, variables, model: vec![BYTE; length(random, model.len())] },
    ]
}
