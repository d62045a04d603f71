//! What rows mean, by textbook arithmetic over cancelled fractions: no widths, no common denominators, no circuit.

use crate::plain::row::{Kind, Row};

/// A cancelled fraction over a positive denominator.
#[derive(Clone, Copy, Debug, PartialEq, Eq)]
pub struct Fraction {
    over: i128,
    under: i128,
}

impl Fraction {
    pub fn new(over: i128, under: i128) -> Fraction {
        let (mut a, mut b) = (over.abs(), under);
        while b != 0 {
            (a, b) = (b, a % b);
        }
        Fraction { over: over / a, under: under / a }
    }

    fn plus(self, other: Fraction) -> Fraction {
        Fraction::new(self.over * other.under + other.over * self.under, self.under * other.under)
    }

    fn minus(self, other: Fraction) -> Fraction {
        self.plus(Fraction { over: -other.over, under: other.under })
    }

    fn times(self, other: Fraction) -> Fraction {
        Fraction::new(self.over * other.over, self.under * other.under)
    }

    fn above(self, other: Fraction) -> bool {
        self.minus(other).over > 0
    }
}

/// The worth of every row, at numerators for the unknowns; a Boolean is 0 or 1.
pub fn worth(rows: &[Row], values: &[i64]) -> Vec<Fraction> {
    let mut values = values.iter();
    let mut found: Vec<Fraction> = vec![];
    for row in rows {
        let value = match row.kind.is_unknown() {
            true => i128::from(*values.next().expect("one value for each unknown")),
            false => 0,
        };
        found.push(row_worth(row, value, &found));
    }
    found
}

fn row_worth(row: &Row, value: i128, found: &[Fraction]) -> Fraction {
    let truth = |is: bool| Fraction::new(is.into(), 1);
    let at = |i: u16| found[usize::from(i)];
    let is = |i: u16| at(i) == truth(true);
    let (x, y, z) = (row.x, row.y, row.z);
    match row.kind {
        Kind::Constant => truth(x == 1),
        Kind::Unknown => truth(value == 1),
        Kind::Natural | Kind::Integer => Fraction::new(value, z.into()),
        Kind::Number => Fraction::new((i32::from(x as i16) * 65536 + i32::from(y)).into(), z.into()),
        Kind::Not => truth(!is(x)),
        Kind::And => truth(is(x) & is(y)),
        Kind::Or => truth(is(x) | is(y)),
        Kind::Implies => truth(!(is(x) & !is(y))),
        Kind::Iff => truth(is(x) == is(y)),
        Kind::Sum => at(x).plus(at(y)),
        Kind::Difference => at(x).minus(at(y)),
        Kind::Product => at(x).times(at(y)),
        Kind::Choice if is(x) => at(y),
        Kind::Choice => at(z),
        Kind::Greater => truth(at(x).above(at(y))),
        Kind::Equal => truth(at(x) == at(y)),
    }
}
