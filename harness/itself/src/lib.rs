//! The plain implementation behind include/fordrambler.h. The harness tests itself, its pipe and its server with it; it is
//! never compared with anything in the library's place.

use harness::plain::lent;
use harness::record::Record;
use std::slice::{from_raw_parts as part, from_raw_parts_mut as lent_part};

type In<T> = *const T;
type Out<T> = *mut T;

/// # Safety
/// As include/fordrambler.h says of its pointers.
#[no_mangle]
pub unsafe extern "C" fn fordrambler_check(t: In<u8>, tl: usize, r: Out<Record>, rl: usize, place: Out<usize>) -> u32 {
    lent::check(part(t, tl), lent_part(r, rl), &mut *place)
}

/// # Safety
/// As include/fordrambler.h says of its pointers.
#[no_mangle]
pub unsafe extern "C" fn fordrambler_measure(
    t: In<u8>,
    tl: usize,
    variables: Out<u32>,
    clauses: Out<u32>,
    slots: Out<u32>,
    place: Out<usize>,
) -> u32 {
    lent::measure(part(t, tl), &mut *variables, &mut *clauses, &mut *slots, &mut *place)
}

/// # Safety
/// As include/fordrambler.h says of its pointers.
#[no_mangle]
pub unsafe extern "C" fn fordrambler_write(
    t: In<u8>,
    tl: usize,
    r: Out<Record>,
    rl: usize,
    m: Out<i32>,
    ml: usize,
    s: Out<i32>,
    sl: usize,
    place: Out<usize>,
) -> u32 {
    lent::write(part(t, tl), lent_part(r, rl), lent_part(m, ml), lent_part(s, sl), &mut *place)
}

/// # Safety
/// As include/fordrambler.h says of its pointers.
#[no_mangle]
pub unsafe extern "C" fn fordrambler_row_clauses(
    t: In<u8>,
    tl: usize,
    s: In<i32>,
    sl: usize,
    row: u32,
    first: Out<usize>,
    count: Out<usize>,
    place: Out<usize>,
) -> u32 {
    lent::row_clauses(part(t, tl), part(s, sl), row, &mut *first, &mut *count, &mut *place)
}

/// # Safety
/// As include/fordrambler.h says of its pointers.
#[no_mangle]
pub unsafe extern "C" fn fordrambler_evaluate(
    t: In<u8>,
    tl: usize,
    v: In<i64>,
    vl: usize,
    r: Out<i64>,
    rl: usize,
    place: Out<usize>,
) -> u32 {
    lent::evaluate(part(t, tl), part(v, vl), lent_part(r, rl), &mut *place)
}

/// # Safety
/// As include/fordrambler.h says of its pointers.
#[no_mangle]
pub unsafe extern "C" fn fordrambler_extend(
    t: In<u8>,
    tl: usize,
    v: In<i64>,
    vl: usize,
    m: Out<u8>,
    ml: usize,
    truth: Out<u8>,
    place: Out<usize>,
) -> u32 {
    lent::extend(part(t, tl), part(v, vl), lent_part(m, ml), &mut *truth, &mut *place)
}

/// # Safety
/// As include/fordrambler.h says of its pointers.
#[no_mangle]
pub unsafe extern "C" fn fordrambler_decode(
    t: In<u8>,
    tl: usize,
    r: Out<Record>,
    rl: usize,
    m: Out<i32>,
    ml: usize,
    s: Out<i32>,
    sl: usize,
    model: In<u8>,
    model_len: usize,
    v: Out<i64>,
    vl: usize,
    place: Out<usize>,
) -> u32 {
    let (records, map, slots) = (lent_part(r, rl), lent_part(m, ml), lent_part(s, sl));
    lent::decode(part(t, tl), records, map, slots, part(model, model_len), lent_part(v, vl), &mut *place)
}

/// # Safety
/// As include/fordrambler.h says of its pointers.
#[no_mangle]
pub unsafe extern "C" fn fordrambler_read_lines(
    x: In<u8>,
    xl: usize,
    t: Out<u8>,
    tl: usize,
    table_read: Out<usize>,
    place: Out<usize>,
) -> u32 {
    lent::read_lines(part(x, xl), lent_part(t, tl), &mut *table_read, &mut *place)
}

/// # Safety
/// As include/fordrambler.h says of its pointers.
#[no_mangle]
pub unsafe extern "C" fn fordrambler_read_lines_until_empty(
    x: In<u8>,
    xl: usize,
    t: Out<u8>,
    tl: usize,
    table_read: Out<usize>,
    rest: Out<usize>,
    ended: Out<u8>,
    place: Out<usize>,
) -> u32 {
    let text = part(x, xl);
    lent::read_lines_until_empty(text, lent_part(t, tl), &mut *table_read, &mut *rest, &mut *ended, &mut *place)
}

/// # Safety
/// As include/fordrambler.h says of its pointers.
#[no_mangle]
pub unsafe extern "C" fn fordrambler_read_claim(
    x: In<u8>,
    xl: usize,
    variables: u32,
    m: Out<u8>,
    ml: usize,
    claim: Out<u8>,
    place: Out<usize>,
) -> u32 {
    lent::read_claim(part(x, xl), variables, lent_part(m, ml), &mut *claim, &mut *place)
}
