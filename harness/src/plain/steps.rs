//! From rows to gates: the whole table's circuit, and each row's literals.

use super::acceptance::{least_common_multiple, Sheet};
use super::gates::{Circuit, Literal, FALSE, TRUE};
use super::numbers;
use super::row::{Kind, Row};

pub struct Built {
    pub circuit: Circuit,
    pub literals: Vec<Vec<Literal>>,
}

pub fn build(sheet: &Sheet) -> Built {
    let mut built = Built { circuit: Circuit::new(), literals: vec![] };
    for row in &sheet.rows {
        let literals = match row.pair() {
            Some((a, b)) => pair_row(&mut built, sheet, row, a, b),
            None => single_row(&mut built, row),
        };
        built.literals.push(literals);
    }
    built
}

fn single_row(built: &mut Built, row: &Row) -> Vec<Literal> {
    let Built { circuit, literals } = built;
    let x = || literals[usize::from(row.x)][0];
    let y = || literals[usize::from(row.y)][0];
    let mut bits = |n: u8| -> Vec<Literal> { (0..n).map(|_| circuit.free()).collect() };
    match row.kind {
        Kind::Constant => vec![if row.x == 1 { TRUE } else { FALSE }],
        Kind::Unknown => bits(1),
        Kind::Natural => [bits(row.p), vec![FALSE]].concat(),
        Kind::Integer => bits(row.p),
        Kind::Number => numbers::constant(row.numerator().into()),
        Kind::Not => vec![-x()],
        Kind::And => vec![circuit.and(x(), y())],
        Kind::Or => vec![-circuit.and(-x(), -y())],
        Kind::Implies => vec![-circuit.and(x(), -y())],
        Kind::Iff => vec![-circuit.xor(x(), y())],
        _ => numbers::product(circuit, &literals[usize::from(row.x)], &literals[usize::from(row.y)]),
    }
}

fn pair_row(built: &mut Built, sheet: &Sheet, row: &Row, a: usize, b: usize) -> Vec<Literal> {
    let (of_a, of_b) = (sheet.records[a].denominator, sheet.records[b].denominator);
    let common = least_common_multiple(of_a, of_b);
    let Built { circuit, literals } = built;
    let first = numbers::expanded(circuit, &literals[a], common / of_a);
    let second = numbers::expanded(circuit, &literals[b], common / of_b);
    match row.kind {
        Kind::Sum => numbers::sum(circuit, &first, &second),
        Kind::Difference => numbers::difference(circuit, &first, &second),
        Kind::Choice => numbers::choice(circuit, literals[usize::from(row.x)][0], &first, &second),
        Kind::Greater => vec![numbers::greater(circuit, &first, &second)],
        _ => vec![numbers::equal(circuit, &first, &second)],
    }
}

impl Built {
    /// All clauses, each followed by 0: the unit 1, the rows', the unit of the last row.
    pub fn slots(&self) -> Vec<i32> {
        let mut slots = vec![];
        for (i, gate) in self.circuit.gates.iter().enumerate() {
            gate.write(i as Literal + 1, &mut slots);
        }
        slots.extend([self.constraint(), 0]);
        slots
    }

    /// 48 places a row: its literals, then zeros.
    pub fn map(&self) -> Vec<i32> {
        let mut map = vec![0; 48 * self.literals.len()];
        for (page, literals) in map.chunks_mut(48).zip(&self.literals) {
            page[..literals.len()].copy_from_slice(literals);
        }
        map
    }

    /// The last row's literal.
    pub fn constraint(&self) -> Literal {
        self.literals[self.literals.len() - 1][0]
    }
}
