//! What every implementation shares: a row's record, the three buffers of a table, and a refusal.

/// A row's record, as `fordrambler_record` in include/fordrambler.h.
#[derive(Clone, Copy, Debug, Default, PartialEq, Eq)]
#[repr(C)]
pub struct Record {
    pub sort: u32,
    pub width: u32,
    pub denominator: u32,
    pub first_slot: u32,
    pub slot_count: u32,
}

/// Records, map and slots, as they are lent and as writing leaves them.
#[derive(Clone)]
pub struct Buffers {
    pub records: Vec<Record>,
    pub map: Vec<i32>,
    pub slots: Vec<i32>,
}

/// A refusal's number and its place.
#[derive(Clone, Copy, Debug, PartialEq, Eq)]
pub struct Refusal {
    pub number: u32,
    pub place: usize,
}

/// The refusal of this number at this place.
pub fn refuse<T>(number: u32, place: usize) -> Result<T, Refusal> {
    Err(Refusal { number, place })
}
