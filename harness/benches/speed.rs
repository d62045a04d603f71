//! Times the library's calls against the plain implementation and against a copy of as many bytes, in one run. Buffers are not cleared
//! between calls. Nothing is asserted. SERVER is the command of the server that makes the library's calls; CLAUSES and
//! PLAIN_CLAUSES are those of the clause program and of the plain implementation as one, as harness/bench sets them.

use harness::compare::request::Request;
use harness::generate::tables::{products, row};
use harness::library::{Library, Programs};
use harness::piped::Piped;
use harness::plain::acceptance::{accept, Sheet};
use harness::plain::calls::extend;
use harness::plain::{lent, print, programs};
use harness::processes::Processes;
use harness::record::{Buffers, Record};
use std::hint::black_box;
use std::time::Instant;

/// How long one batch of calls goes on, about, and how many batches there are; the fastest counts.
const SECONDS: f64 = 0.1;
const BATCHES: usize = 5;

fn fastest(batch: impl FnMut() -> f64) -> f64 {
    std::iter::repeat_with(batch).take(BATCHES).fold(f64::INFINITY, f64::min)
}

/// Nanoseconds of one call.
fn time<T>(mut call: impl FnMut() -> T) -> f64 {
    black_box(call());
    fastest(|| {
        let mut calls = 0;
        let began = Instant::now();
        while began.elapsed().as_secs_f64() < SECONDS {
            black_box(call());
            calls += 1;
        }
        began.elapsed().as_secs_f64() * 1e9 / f64::from(calls)
    })
}

/// Nanoseconds of one call of the library, as often as the plain call fits the time.
fn time_library(library: &mut Piped, request: &Request, plain: f64) -> f64 {
    library.times = (SECONDS * 1e9 / plain).clamp(1.0, 1e6) as u32;
    fastest(|| {
        request.make(library);
        library.nanoseconds as f64 / f64::from(library.times)
    })
}

fn copy(bytes: usize) -> f64 {
    let (from, mut to) = (vec![1u8; bytes], vec![0u8; bytes]);
    time(|| black_box(&mut to).copy_from_slice(black_box(&from)))
}

struct Bench {
    table: Vec<u8>,
    sheet: Sheet,
    values: Vec<i64>,
    model: Vec<u8>,
    library: Option<Piped>,
}

impl Bench {
    fn new() -> Bench {
        let table = products(20);
        let sheet = accept(&table).expect("the table passes");
        let values = vec![4_000_000, 3_000_000];
        let (model, truth) = extend(&table, &values, sheet.counts.variables as usize).expect("the values fit");
        assert!(truth, "the values meet the table");
        let server = std::env::var("SERVER").unwrap_or_default();
        let words: Vec<String> = server.split_whitespace().map(String::from).collect();
        let library = (!words.is_empty()).then(|| Piped::start(&words));
        Bench { table, sheet, values, model, library }
    }

    fn buffers(&self) -> Buffers {
        let rows = self.sheet.rows.len();
        let slots = vec![0; self.sheet.counts.slots as usize];
        Buffers { records: vec![Record::default(); rows], map: vec![0; 48 * rows], slots }
    }

    /// One line: the library, the plain implementation, and a copy of the bytes that the call writes.
    fn line(&mut self, request: Request, bytes: usize, plain: f64) {
        let copied = copy(bytes);
        let name = request.name();
        match &mut self.library {
            Some(library) => {
                let found = time_library(library, &request, plain);
                let (to_plain, to_copy) = (found / plain, found / copied);
                println!("{name:30} {found:12.0} ns  plain {plain:12.0} ns  library/plain {to_plain:6.2}  library/copy {to_copy:8.2}");
            }
            None => {
                println!("{name:30} plain {plain:12.0} ns  plain/copy {:8.2}  (no library)", plain / copied);
            }
        }
    }

    fn write(&mut self) {
        let (table, mut lent_to, mut place) = (self.table.clone(), self.buffers(), 0);
        let Buffers { records, map, slots } = &mut lent_to;
        let bytes = 20 * records.len() + 4 * map.len() + 4 * slots.len();
        let plain = time(|| lent::write(&table, records, map, slots, &mut place));
        self.line(Request::Write { table, buffers: self.buffers() }, bytes, plain);
    }

    fn check(&mut self) {
        let (table, mut records, mut place) = (self.table.clone(), self.buffers().records, 0);
        let plain = time(|| lent::check(&table, &mut records, &mut place));
        self.line(Request::Check { table, records: self.buffers().records }, 20 * self.sheet.rows.len(), plain);
    }

    fn measure(&mut self) {
        let (table, [mut v, mut c, mut s], mut p) = (self.table.clone(), [0; 3], 0);
        let plain = time(|| lent::measure(&table, &mut v, &mut c, &mut s, &mut p));
        self.line(Request::Measure { table }, 12, plain);
    }

    fn evaluate(&mut self) {
        let (table, values, mut place) = (self.table.clone(), self.values.clone(), 0);
        let mut results = vec![0; self.sheet.rows.len()];
        let bytes = 8 * results.len();
        let plain = time(|| lent::evaluate(&table, &values, &mut results, &mut place));
        self.line(Request::Evaluate { table, values, results }, bytes, plain);
    }

    fn extend(&mut self) {
        let (table, values) = (self.table.clone(), self.values.clone());
        let (mut model, mut truth, mut place) = (self.model.clone(), 0, 0);
        let bytes = model.len();
        let plain = time(|| lent::extend(&table, &values, &mut model, &mut truth, &mut place));
        self.line(Request::Extend { table, values, model }, bytes, plain);
    }

    fn decode(&mut self) {
        let (table, model, mut values) = (self.table.clone(), self.model.clone(), self.values.clone());
        let (mut lent_to, mut place) = (self.buffers(), 0);
        let Buffers { records, map, slots } = &mut lent_to;
        let bytes = 20 * records.len() + 4 * map.len() + 4 * slots.len();
        let plain = time(|| lent::decode(&table, records, map, slots, &model, &mut values, &mut place));
        self.line(Request::Decode { table, buffers: self.buffers(), model, values }, bytes, plain);
    }

    fn read_claim(&mut self) {
        let (text, variables) = (print::model(&self.model).into_bytes(), self.sheet.counts.variables);
        let (mut model, mut claim, mut place) = (self.model.clone(), 0, 0);
        let bytes = model.len();
        let plain = time(|| lent::read_claim(&text, variables, &mut model, &mut claim, &mut place));
        self.line(Request::ReadClaim { text, variables, model }, bytes, plain);
    }

    fn read_lines(&mut self) {
        let text = print::lines(&products(250)).into_bytes();
        let (mut table, mut read, mut place) = (vec![0; 2048], 0, 0);
        let plain = time(|| lent::read_lines(&text, &mut table, &mut read, &mut place));
        self.line(Request::ReadLines { text, table }, 2048, plain);
    }
}

/// A program's start, on a text that it refuses at once, and how fast it makes a clause text behind that.
fn time_program(command: &str, input: &[u8], bytes: usize) -> (f64, f64) {
    let words = command.split_whitespace().map(String::from).collect();
    let mut program = Processes { clauses: words, settings: vec![], values: vec![] };
    let start = time(|| program.clauses(b"-"));
    let all = time(|| program.clauses(input));
    (start / 1e3, bytes as f64 / (all - start) * 1e3)
}

/// The clause program and the plain implementation as a program, both as processes.
fn clause_text() {
    let unknown = row(0x03, 11, 0, 0, 1);
    let table = [unknown, unknown, row(0x22, 0, 0, 1, 0), row(0x30, 0, 2, 0, 0)].concat();
    let input = print::lines(&table).into_bytes();
    let bytes = programs::clauses(&input).len();
    let [Ok(program), Ok(plain)] = ["CLAUSES", "PLAIN_CLAUSES"].map(std::env::var) else {
        println!("clause text: CLAUSES or PLAIN_CLAUSES is not set, so nothing is timed");
        return;
    };
    let ((start, speed), (plain_start, plain_speed)) =
        (time_program(&program, &input, bytes), time_program(&plain, &input, bytes));
    println!("clause text of {bytes} bytes   {speed:6.1} MB/s  plain {plain_speed:6.1} MB/s  library/plain {:6.2}  (time, behind the start: {start:.0} us, plain {plain_start:.0} us)", plain_speed / speed);
}

fn main() {
    let mut bench = Bench::new();
    let slots = bench.sheet.counts.slots;
    println!("a table of 20 products of 48 bits, {slots} slots; times of one call");
    if let Some(library) = &mut bench.library {
        let ([mut v, mut c, mut s], mut p) = ([0; 3], 0);
        let number = library.measure(&bench.table, &mut v, &mut c, &mut s, &mut p);
        assert_eq!(number, 0, "the library accepts the table");
    }
    bench.check();
    bench.measure();
    bench.write();
    bench.evaluate();
    bench.extend();
    bench.decode();
    bench.read_lines();
    bench.read_claim();
    clause_text();
}
