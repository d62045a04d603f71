//! A row of the table: eight bytes, their kind and their fields.

#[derive(Clone, Copy, Debug, PartialEq, Eq)]
pub enum Kind {
    Constant,
    Unknown,
    Natural,
    Integer,
    Number,
    Not,
    And,
    Or,
    Implies,
    Iff,
    Sum,
    Difference,
    Product,
    Choice,
    Greater,
    Equal,
}

use Kind::*;

impl Kind {
    pub fn of(byte: u8) -> Option<Kind> {
        Some(match byte {
            0x00 => Constant,
            0x01 => Unknown,
            0x02 => Natural,
            0x03 => Integer,
            0x04 => Number,
            0x10 => Not,
            0x11 => And,
            0x12 => Or,
            0x13 => Implies,
            0x14 => Iff,
            0x20 => Sum,
            0x21 => Difference,
            0x22 => Product,
            0x23 => Choice,
            0x30 => Greater,
            0x31 => Equal,
            _ => return None,
        })
    }

    /// Whether a row of this kind is an unknown.
    pub fn is_unknown(self) -> bool {
        matches!(self, Unknown | Natural | Integer)
    }
}

#[derive(Clone, Copy, Debug, PartialEq, Eq)]
pub struct Row {
    pub kind: Kind,
    pub p: u8,
    pub x: u16,
    pub y: u16,
    pub z: u16,
}

impl Row {
    /// The row of eight bytes, if its kind is known.
    pub fn of(bytes: &[u8]) -> Option<Row> {
        let pair = |i: usize| u16::from_be_bytes([bytes[i], bytes[i + 1]]);
        let kind = Kind::of(bytes[0])?;
        Some(Row { kind, p: bytes[1], x: pair(2), y: pair(4), z: pair(6) })
    }

    /// Whether every field without a use is zero.
    pub fn is_tidy(&self) -> bool {
        let Row { kind, p, x, y, z } = *self;
        match kind {
            Constant => p == 0 && y == 0 && z == 0,
            Unknown => p == 0 && x == 0 && y == 0 && z == 0,
            Natural | Integer => x == 0 && y == 0,
            Number | Choice => p == 0,
            Not => p == 0 && y == 0 && z == 0,
            And | Or | Implies | Iff | Sum | Difference | Product | Greater | Equal => p == 0 && z == 0,
        }
    }

    /// Whether a constant, p and a declared denominator are within their ranges.
    pub fn is_in_range(&self) -> bool {
        let denominator = (1..=4096).contains(&self.z);
        match self.kind {
            Constant => self.x <= 1,
            Natural => (1..=31).contains(&self.p) && denominator,
            Integer => (1..=32).contains(&self.p) && denominator,
            Number => denominator,
            _ => true,
        }
    }

    /// The rows that this one names.
    pub fn references(&self) -> Vec<usize> {
        let Row { kind, x, y, z, .. } = *self;
        let named = match kind {
            Constant | Unknown | Natural | Integer | Number => vec![],
            Not => vec![x],
            Choice => vec![x, y, z],
            _ => vec![x, y],
        };
        named.into_iter().map(usize::from).collect()
    }

    /// The two numbers that are brought to one denominator.
    pub fn pair(&self) -> Option<(usize, usize)> {
        let Row { kind, x, y, z, .. } = *self;
        match kind {
            Sum | Difference | Greater | Equal => Some((x.into(), y.into())),
            Choice => Some((y.into(), z.into())),
            _ => None,
        }
    }

    /// The numerator of a number constant.
    pub fn numerator(&self) -> i32 {
        (u32::from(self.x) << 16 | u32::from(self.y)) as i32
    }
}
