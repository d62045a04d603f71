//! The library behind a pipe: shim/server.c makes the calls.

use crate::library::Library;
use crate::record::Record;
use std::io::{BufReader, BufWriter, Read, Write};
use std::process::{Child, ChildStdin, ChildStdout, Command, Stdio};

pub struct Piped {
    to: BufWriter<ChildStdin>,
    from: BufReader<ChildStdout>,
    process: Child,
    /// How often the server makes each call.
    pub times: u32,
    /// What all calls of the last request took together.
    pub nanoseconds: u64,
}

/// Takes over what has become of a buffer.
type Store<'a> = Box<dyn FnOnce(&[u8]) + 'a>;

/// A parameter of a call: what is handed over, and what becomes of it.
enum Field<'a> {
    Const(Vec<u8>),
    Lent(Vec<u8>, Store<'a>),
}

impl Piped {
    /// Starts the server: a command and its words.
    pub fn start(words: &[String]) -> Piped {
        let mut command = Command::new(&words[0]);
        let process = command.args(&words[1..]).stdin(Stdio::piped()).stdout(Stdio::piped()).spawn();
        let mut process = process.unwrap_or_else(|e| panic!("{words:?} does not start: {e}"));
        let to = BufWriter::new(process.stdin.take().expect("the server's input is a pipe"));
        let from = BufReader::new(process.stdout.take().expect("the server's output is a pipe"));
        Piped { to, from, process, times: 1, nanoseconds: 0 }
    }

    fn call(&mut self, which: u8, fields: Vec<Field>) -> u32 {
        self.request(which, &fields).expect("the server takes the request");
        self.answer(fields).expect("the server answers")
    }

    fn request(&mut self, which: u8, fields: &[Field]) -> std::io::Result<()> {
        self.to.write_all(&[which])?;
        self.to.write_all(&self.times.to_le_bytes())?;
        for Field::Const(bytes) | Field::Lent(bytes, _) in fields {
            self.to.write_all(&(bytes.len() as u64).to_le_bytes())?;
            self.to.write_all(bytes)?;
        }
        self.to.flush()
    }

    fn answer(&mut self, fields: Vec<Field>) -> std::io::Result<u32> {
        let number = u32::from_le_bytes(self.take()?);
        self.nanoseconds = u64::from_le_bytes(self.take()?);
        let [stray] = self.take()?;
        assert_eq!(stray, 0, "the library has written outside the buffers lent to it");
        for field in fields {
            let (Field::Const(before) | Field::Lent(before, _)) = &field;
            let mut after = vec![0; before.len()];
            self.from.read_exact(&mut after)?;
            match field {
                Field::Const(before) => assert!(before == after, "the library has changed what it may only read"),
                Field::Lent(_, store) => store(&after),
            }
        }
        Ok(number)
    }

    fn take<const N: usize>(&mut self) -> std::io::Result<[u8; N]> {
        let mut bytes = [0; N];
        self.from.read_exact(&mut bytes)?;
        Ok(bytes)
    }
}

impl Drop for Piped {
    fn drop(&mut self) {
        // without a reader the server ends at its next answer; it is idle now, so it can be stopped
        let _ = self.process.kill();
        let _ = self.process.wait();
    }
}

/// Numbers that cross the pipe.
trait Plainly: Copy {
    fn put(self, to: &mut Vec<u8>);
    fn size() -> usize;
    fn get(from: &[u8]) -> Self;
}

macro_rules! plainly {
    ($($number:ty),*) => { $(
        impl Plainly for $number {
            fn put(self, to: &mut Vec<u8>) {
                to.extend(self.to_le_bytes());
            }
            fn size() -> usize {
                std::mem::size_of::<$number>()
            }
            fn get(from: &[u8]) -> $number {
                <$number>::from_le_bytes(from.try_into().expect("a number of this size"))
            }
        }
    )* };
}

plainly!(u8, u32, i32, i64, usize);

impl Plainly for Record {
    fn put(self, to: &mut Vec<u8>) {
        let Record { sort, width, denominator, first_slot, slot_count } = self;
        [sort, width, denominator, first_slot, slot_count].into_iter().for_each(|n| n.put(to));
    }
    fn size() -> usize {
        20
    }
    fn get(from: &[u8]) -> Record {
        let at = |i: usize| u32::get(&from[4 * i..4 * i + 4]);
        Record { sort: at(0), width: at(1), denominator: at(2), first_slot: at(3), slot_count: at(4) }
    }
}

fn bytes<T: Plainly>(numbers: &[T]) -> Vec<u8> {
    let mut bytes = Vec::with_capacity(numbers.len() * T::size());
    numbers.iter().for_each(|n| n.put(&mut bytes));
    bytes
}

fn reads<'a, T: Plainly>(numbers: &[T]) -> Field<'a> {
    Field::Const(bytes(numbers))
}

fn lends<T: Plainly>(numbers: &mut [T]) -> Field<'_> {
    let before = bytes(numbers);
    let store = |after: &[u8]| {
        for (number, from) in numbers.iter_mut().zip(after.chunks(T::size())) {
            *number = T::get(from);
        }
    };
    Field::Lent(before, Box::new(store))
}

fn sets<T: Plainly>(number: &mut T) -> Field<'_> {
    lends(std::slice::from_mut(number))
}

impl Library for Piped {
    fn check(&mut self, table: &[u8], records: &mut [Record], place: &mut usize) -> u32 {
        self.call(0, vec![reads(table), lends(records), sets(place)])
    }

    fn measure(
        &mut self,
        table: &[u8],
        variables: &mut u32,
        clauses: &mut u32,
        slots: &mut u32,
        place: &mut usize,
    ) -> u32 {
        self.call(1, vec![reads(table), sets(variables), sets(clauses), sets(slots), sets(place)])
    }

    fn write(
        &mut self,
        table: &[u8],
        records: &mut [Record],
        map: &mut [i32],
        slots: &mut [i32],
        place: &mut usize,
    ) -> u32 {
        self.call(2, vec![reads(table), lends(records), lends(map), lends(slots), sets(place)])
    }

    fn row_clauses(
        &mut self,
        table: &[u8],
        slots: &[i32],
        row: u32,
        first: &mut usize,
        count: &mut usize,
        place: &mut usize,
    ) -> u32 {
        self.call(3, vec![reads(table), reads(slots), reads(&[row]), sets(first), sets(count), sets(place)])
    }

    fn evaluate(&mut self, table: &[u8], values: &[i64], results: &mut [i64], place: &mut usize) -> u32 {
        self.call(4, vec![reads(table), reads(values), lends(results), sets(place)])
    }

    fn extend(&mut self, table: &[u8], values: &[i64], model: &mut [u8], truth: &mut u8, place: &mut usize) -> u32 {
        self.call(5, vec![reads(table), reads(values), lends(model), sets(truth), sets(place)])
    }

    fn decode(
        &mut self,
        table: &[u8],
        records: &mut [Record],
        map: &mut [i32],
        slots: &mut [i32],
        model: &[u8],
        values: &mut [i64],
        place: &mut usize,
    ) -> u32 {
        let fields =
            vec![reads(table), lends(records), lends(map), lends(slots), reads(model), lends(values), sets(place)];
        self.call(6, fields)
    }

    fn read_lines(&mut self, text: &[u8], table: &mut [u8], table_read: &mut usize, place: &mut usize) -> u32 {
        self.call(7, vec![reads(text), lends(table), sets(table_read), sets(place)])
    }

    fn read_lines_until_empty(
        &mut self,
        text: &[u8],
        table: &mut [u8],
        table_read: &mut usize,
        rest: &mut usize,
        ended: &mut u8,
        place: &mut usize,
    ) -> u32 {
        let fields = vec![reads(text), lends(table), sets(table_read), sets(rest), sets(ended), sets(place)];
        self.call(8, fields)
    }

    fn read_claim(&mut self, text: &[u8], variables: u32, model: &mut [u8], claim: &mut u8, place: &mut usize) -> u32 {
        self.call(9, vec![reads(text), reads(&[variables]), lends(model), sets(claim), sets(place)])
    }
}
