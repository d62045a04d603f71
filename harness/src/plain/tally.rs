//! How many gates of each sort a circuit has, and what that makes in variables, clauses and slots.

use std::ops::Add;

#[derive(Clone, Copy, Debug, Default, PartialEq, Eq)]
pub struct Tally {
    pub free: u32,
    pub and: u32,
    pub xor: u32,
    pub mux: u32,
    pub maj: u32,
}

impl Add for Tally {
    type Output = Tally;
    fn add(self, other: Tally) -> Tally {
        Tally {
            free: self.free + other.free,
            and: self.and + other.and,
            xor: self.xor + other.xor,
            mux: self.mux + other.mux,
            maj: self.maj + other.maj,
        }
    }
}

impl Tally {
    pub fn variables(self) -> u32 {
        self.free + self.and + self.xor + self.mux + self.maj
    }

    pub fn clauses(self) -> u32 {
        3 * self.and + 4 * self.xor + 4 * self.mux + 6 * self.maj
    }

    /// Each clause has its literals and a 0.
    pub fn slots(self) -> u32 {
        (3 + 3 + 4) * self.and + 4 * 4 * self.xor + 4 * 4 * self.mux + 6 * 4 * self.maj
    }

    pub fn unknown(bits: u32) -> Tally {
        Tally { free: bits, ..Tally::default() }
    }

    pub fn one_and() -> Tally {
        Tally { and: 1, ..Tally::default() }
    }

    pub fn one_xor() -> Tally {
        Tally { xor: 1, ..Tally::default() }
    }

    pub fn adder(bits: u32) -> Tally {
        Tally { xor: 2 * bits, maj: bits, ..Tally::default() }
    }

    /// The product whose two widths add up to this one.
    pub fn product(width: u32) -> Tally {
        let below = width * (width - 1) / 2;
        Tally { and: width + below, ..Tally::adder(below) }
    }

    pub fn greater(bits: u32) -> Tally {
        Tally { xor: bits, mux: bits, ..Tally::default() }
    }

    pub fn equal(bits: u32) -> Tally {
        Tally { xor: bits, and: bits, ..Tally::default() }
    }

    pub fn choice(bits: u32) -> Tally {
        Tally { mux: bits, ..Tally::default() }
    }
}
