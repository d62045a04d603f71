//! What is compared: the calls of include/fordrambler.h and the programs, whoever provides them.

use crate::record::Record;

/// The calls, with the buffers that are lent.
#[allow(clippy::too_many_arguments)]
pub trait Library {
    fn check(&mut self, table: &[u8], records: &mut [Record], place: &mut usize) -> u32;
    fn measure(
        &mut self,
        table: &[u8],
        variables: &mut u32,
        clauses: &mut u32,
        slots: &mut u32,
        place: &mut usize,
    ) -> u32;
    fn write(
        &mut self,
        table: &[u8],
        records: &mut [Record],
        map: &mut [i32],
        slots: &mut [i32],
        place: &mut usize,
    ) -> u32;
    fn row_clauses(
        &mut self,
        table: &[u8],
        slots: &[i32],
        row: u32,
        first: &mut usize,
        count: &mut usize,
        place: &mut usize,
    ) -> u32;
    fn evaluate(&mut self, table: &[u8], values: &[i64], results: &mut [i64], place: &mut usize) -> u32;
    fn extend(&mut self, table: &[u8], values: &[i64], model: &mut [u8], truth: &mut u8, place: &mut usize) -> u32;
    fn decode(
        &mut self,
        table: &[u8],
        records: &mut [Record],
        map: &mut [i32],
        slots: &mut [i32],
        model: &[u8],
        values: &mut [i64],
        place: &mut usize,
    ) -> u32;
    fn read_lines(&mut self, text: &[u8], table: &mut [u8], table_read: &mut usize, place: &mut usize) -> u32;
    fn read_lines_until_empty(
        &mut self,
        text: &[u8],
        table: &mut [u8],
        table_read: &mut usize,
        rest: &mut usize,
        ended: &mut u8,
        place: &mut usize,
    ) -> u32;
    fn read_claim(&mut self, text: &[u8], variables: u32, model: &mut [u8], claim: &mut u8, place: &mut usize) -> u32;
}

/// The programs: input to output.
pub trait Programs {
    fn clauses(&mut self, input: &[u8]) -> Vec<u8>;
    fn settings(&mut self, input: &[u8]) -> Vec<u8>;
    fn values(&mut self, input: &[u8]) -> Vec<u8>;
}

/// Makes a type a library and the programs out of a module like `plain`.
#[macro_export]
macro_rules! provide {
    ($name:ident, $module:path) => {
        const _: () = {
            use $crate::library::{Library, Programs};
            use $crate::record::Record;
            use $module as source;

            impl Library for $name {
                fn check(&mut self, t: &[u8], r: &mut [Record], p: &mut usize) -> u32 {
                    source::lent::check(t, r, p)
                }
                fn measure(&mut self, t: &[u8], v: &mut u32, c: &mut u32, s: &mut u32, p: &mut usize) -> u32 {
                    source::lent::measure(t, v, c, s, p)
                }
                fn write(&mut self, t: &[u8], r: &mut [Record], m: &mut [i32], s: &mut [i32], p: &mut usize) -> u32 {
                    source::lent::write(t, r, m, s, p)
                }
                fn row_clauses(
                    &mut self,
                    t: &[u8],
                    s: &[i32],
                    r: u32,
                    f: &mut usize,
                    c: &mut usize,
                    p: &mut usize,
                ) -> u32 {
                    source::lent::row_clauses(t, s, r, f, c, p)
                }
                fn evaluate(&mut self, t: &[u8], v: &[i64], r: &mut [i64], p: &mut usize) -> u32 {
                    source::lent::evaluate(t, v, r, p)
                }
                fn extend(&mut self, t: &[u8], v: &[i64], m: &mut [u8], is: &mut u8, p: &mut usize) -> u32 {
                    source::lent::extend(t, v, m, is, p)
                }
                fn decode(
                    &mut self,
                    t: &[u8],
                    r: &mut [Record],
                    m: &mut [i32],
                    s: &mut [i32],
                    model: &[u8],
                    v: &mut [i64],
                    p: &mut usize,
                ) -> u32 {
                    source::lent::decode(t, r, m, s, model, v, p)
                }
                fn read_lines(&mut self, x: &[u8], t: &mut [u8], read: &mut usize, p: &mut usize) -> u32 {
                    source::lent::read_lines(x, t, read, p)
                }
                fn read_lines_until_empty(
                    &mut self,
                    x: &[u8],
                    t: &mut [u8],
                    read: &mut usize,
                    rest: &mut usize,
                    ended: &mut u8,
                    p: &mut usize,
                ) -> u32 {
                    source::lent::read_lines_until_empty(x, t, read, rest, ended, p)
                }
                fn read_claim(&mut self, x: &[u8], v: u32, m: &mut [u8], claim: &mut u8, p: &mut usize) -> u32 {
                    source::lent::read_claim(x, v, m, claim, p)
                }
            }

            impl Programs for $name {
                fn clauses(&mut self, input: &[u8]) -> Vec<u8> {
                    source::programs::clauses(input).into_bytes()
                }
                fn settings(&mut self, input: &[u8]) -> Vec<u8> {
                    source::programs::settings(input).into_bytes()
                }
                fn values(&mut self, input: &[u8]) -> Vec<u8> {
                    source::programs::values(input).into_bytes()
                }
            }
        };
    };
}

/// The plain implementation.
pub struct Plain;

provide!(Plain, crate::plain);
