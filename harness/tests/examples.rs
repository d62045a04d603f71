//! Document 01's examples, held against the plain implementation.

use harness::plain::acceptance::{accept, width_of};
use harness::plain::calls::{evaluate, write, Room};
use harness::plain::programs;
use harness::plain::tally::Tally;
use harness::record::{Record, Refusal};

/// A table of lines without line feeds.
fn table(lines: &[&str]) -> Vec<u8> {
    let byte = |line: &str, i: usize| u8::from_str_radix(&line[2 * i..2 * i + 2], 16).expect("hexadecimal digits");
    lines.iter().flat_map(|line| (0..8).map(move |i| byte(line, i))).collect()
}

fn constant(number: i32, denominator: u16) -> String {
    format!("0400{number:08x}{denominator:04x}")
}

fn pair(kind: &str, x: u16, y: u16) -> String {
    format!("{kind}00{x:04x}{y:04x}0000")
}

/// The rows with one more that makes the table end in a Boolean.
fn with_end(rows: &[String]) -> Vec<u8> {
    let mut lines: Vec<&str> = rows.iter().map(String::as_str).collect();
    lines.push("0000000100000000");
    table(&lines)
}

fn record(rows: &[String], row: usize) -> Result<Record, Refusal> {
    accept(&with_end(rows)).map(|sheet| sheet.records[row])
}

fn refused(number: u32, place: usize) -> Refusal {
    Refusal { number, place }
}

/// The value of the last of the rows, as width, numerator and denominator.
fn worth(rows: &[String]) -> (u32, i64, u32) {
    let table = with_end(rows);
    let last = rows.len() - 1;
    let found = record(rows, last).expect("the table passes");
    let values = evaluate(&table, &[], rows.len() + 1).expect("the table has no unknowns");
    (found.width, values[last], found.denominator)
}

#[test]
fn widths_of_constants() {
    for (number, width) in [(0, 1), (-1, 1), (1, 2), (-2, 2), (127, 8), (-128, 8), (128, 9), (-129, 9)] {
        assert_eq!(width_of(number), width, "{number}");
    }
}

#[test]
fn values_and_widths() {
    assert_eq!(worth(&[constant(0, 1), constant(-4, 1), pair("21", 0, 1)]), (4, 4, 1));
    assert_eq!(worth(&[constant(-8, 1), pair("22", 0, 0)]), (8, 64, 1));
    assert_eq!(worth(&[constant(3, 2), constant(-1, 4), pair("20", 0, 1)]), (7, 5, 4));
    let products =
        [constant(1, 2), constant(4, 2), constant(3, 2), pair("22", 0, 1), pair("22", 3, 2), pair("20", 4, 0)];
    let (_, numerator, denominator) = worth(&products);
    assert_eq!((numerator, denominator), (16, 8));
    assert_eq!(worth(&[constant(1, 2), constant(2, 4), pair("31", 0, 1)]), (1, 1, 1));
}

#[test]
fn products_of_one_bit() {
    let product = Tally::product(2);
    assert_eq!((product.variables(), product.clauses()), (6, 23));
    let table = table(&["0301000000000001", "2200000000000000", "0000000100000000"]);
    assert_eq!(evaluate(&table, &[-1], 3), Ok(vec![-1, 1, 1]));
}

#[test]
fn the_whole_example() {
    let input = b"0100000000000000\n1000000000000000\n1100000000010000\n";
    assert_eq!(programs::clauses(input), "p cnf 3 5\n1 0\n-3 2 0\n-3 -2 0\n3 -2 2 0\n3 0\n");
}

#[test]
fn a_natural_above_two() {
    let table = table(&["0202000000000001", "0400000000020001", "3000000000010000"]);
    let counts = accept(&table).expect("the table passes").counts;
    assert_eq!((counts.variables, counts.clauses, counts.slots), (9, 26, 100));
    let input = b"0202000000000001\n0400000000020001\n3000000000010000\n\ns SATISFIABLE\nv 1 2 3 4 5 -6 7 -8 9 0\n";
    assert_eq!(programs::settings(input), "0 3 1\n");
    assert_eq!(programs::values(input), "0 3 1\n1 2 1\n2 1 1\n");
    let truths: Vec<i64> = (0..4).map(|n| evaluate(&table, &[n], 3).expect("n fits")[2]).collect();
    assert_eq!(truths, [0, 0, 0, 1]);
}

#[test]
fn denominators_at_their_limit() {
    let number = |r| record(&[constant(1, 64), constant(1, 64), constant(1, 65), r], 3);
    assert!(number(pair("22", 0, 1)).is_ok());
    assert_eq!(number(pair("22", 0, 2)), Err(refused(8, 3)));
    assert_eq!(record(&[constant(1, 4096), constant(1, 3), pair("20", 0, 1)], 2), Err(refused(8, 2)));
}

#[test]
fn widths_at_their_limit() {
    let of = |width: u32| format!("03{width:02x}000000000001");
    assert_eq!(record(&[of(24), pair("22", 0, 0)], 1).map(|r| r.width), Ok(48));
    assert_eq!(record(&[of(24), of(25), pair("22", 0, 1)], 2), Err(refused(9, 2)));
    let wide = [of(24), of(23), pair("22", 0, 1), pair("20", 2, 2)];
    assert_eq!(record(&wide, 3).map(|r| r.width), Ok(48));
    assert_eq!(record(&[&wide[..], &[pair("20", 3, 2)]].concat(), 4), Err(refused(9, 4)));
}

#[test]
fn numbers_of_rows_at_their_limit() {
    let rows = |n: usize| table(&["0100000000000000"]).repeat(n);
    assert!(accept(&rows(256)).is_ok());
    assert_eq!(accept(&rows(257)).map(|_| ()), Err(refused(2, 0)));
    assert_eq!(accept(&[]).map(|_| ()), Err(refused(1, 0)));
}

#[test]
fn slots_of_rows_belong_to_their_records() {
    let table = table(&["0202000000000001", "0400000000020001", "3000000000010000", "1000000200000000"]);
    let room = Room { records: 4, map: 192, slots: 100 };
    let written = write(&table, room).expect("the table passes");
    let parts: Vec<(u32, u32)> = written.records.iter().map(|r| (r.first_slot, r.slot_count)).collect();
    assert_eq!(parts, [(2, 0), (2, 0), (2, 96), (98, 0)]);
    assert_eq!(written.map[48..52], [-1, 1, -1, 0]);
    assert_eq!(written.slots[98..], [-9, 0]);
}
