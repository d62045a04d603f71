//! Circuits over numbers: literals lowest first, the sign last.

use super::acceptance::width_of;
use super::gates::{Circuit, Literal, FALSE, TRUE};

/// The number with its sign repeated up to a width.
pub fn extended(number: &[Literal], width: usize) -> Vec<Literal> {
    let sign = number[number.len() - 1];
    (0..width).map(|j| number.get(j).copied().unwrap_or(sign)).collect()
}

/// A constant's literals.
pub fn constant(number: i64) -> Vec<Literal> {
    (0..width_of(number)).map(|j| if number >> j & 1 == 1 { TRUE } else { FALSE }).collect()
}

pub fn negated(number: &[Literal]) -> Vec<Literal> {
    number.iter().map(|l| -l).collect()
}

/// The sum of two numbers of one width, and a carry; the last carry is not used.
fn adder(circuit: &mut Circuit, a: &[Literal], b: &[Literal], mut carry: Literal) -> Vec<Literal> {
    let mut sum = Vec::with_capacity(a.len());
    for (&a, &b) in a.iter().zip(b) {
        let t = circuit.xor(a, b);
        sum.push(circuit.xor(t, carry));
        carry = circuit.maj(a, b, carry);
    }
    sum
}

/// Both numbers at the wider's width and some bits more.
fn alike(a: &[Literal], b: &[Literal], more: usize) -> (Vec<Literal>, Vec<Literal>) {
    let width = a.len().max(b.len()) + more;
    (extended(a, width), extended(b, width))
}

pub fn sum(circuit: &mut Circuit, x: &[Literal], y: &[Literal]) -> Vec<Literal> {
    let (a, b) = alike(x, y, 1);
    adder(circuit, &a, &b, FALSE)
}

pub fn difference(circuit: &mut Circuit, x: &[Literal], y: &[Literal]) -> Vec<Literal> {
    let (a, b) = alike(x, y, 1);
    adder(circuit, &a, &negated(&b), TRUE)
}

pub fn product(circuit: &mut Circuit, x: &[Literal], y: &[Literal]) -> Vec<Literal> {
    let width = x.len() + y.len();
    let (x, y) = (extended(x, width), extended(y, width));
    let mut total: Vec<Literal> = x.iter().map(|&l| circuit.and(l, y[0])).collect();
    for i in 1..width {
        let row: Vec<Literal> = x[..width - i].iter().map(|&l| circuit.and(l, y[i])).collect();
        let high = adder(circuit, &total[i..], &row, FALSE);
        total.splice(i.., high);
    }
    total
}

pub fn greater(circuit: &mut Circuit, x: &[Literal], y: &[Literal]) -> Literal {
    let (a, b) = alike(x, y, 0);
    let sign = a.len() - 1;
    let mut g = FALSE;
    for j in 0..=sign {
        let d = circuit.xor(a[j], b[j]);
        g = circuit.mux(d, if j == sign { b[j] } else { a[j] }, g);
    }
    g
}

pub fn equal(circuit: &mut Circuit, x: &[Literal], y: &[Literal]) -> Literal {
    let (a, b) = alike(x, y, 0);
    let mut e = TRUE;
    for (&a, &b) in a.iter().zip(&b) {
        let d = circuit.xor(a, b);
        e = circuit.and(e, -d);
    }
    e
}

pub fn choice(circuit: &mut Circuit, condition: Literal, y: &[Literal], z: &[Literal]) -> Vec<Literal> {
    let (a, b) = alike(y, z, 0);
    a.iter().zip(&b).map(|(&a, &b)| circuit.mux(condition, a, b)).collect()
}

/// The number times a factor that isn't 1.
pub fn expanded(circuit: &mut Circuit, number: &[Literal], factor: u32) -> Vec<Literal> {
    if factor == 1 {
        return number.to_vec();
    }
    product(circuit, number, &constant(factor.into()))
}
