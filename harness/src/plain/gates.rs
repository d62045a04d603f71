//! Gates: one variable each, its clauses, and its value.

/// A variable, or with a minus its opposite.
pub type Literal = i32;

pub const TRUE: Literal = 1;
pub const FALSE: Literal = -1;

#[derive(Clone, Copy, Debug)]
pub enum Gate {
    /// Variable 1.
    Truth,
    /// A bit of an unknown.
    Free,
    And(Literal, Literal),
    Xor(Literal, Literal),
    /// The condition, then the literal if it holds, then the one if it doesn't.
    Mux(Literal, Literal, Literal),
    Maj(Literal, Literal, Literal),
}

impl Gate {
    /// Appends the clauses of the gate whose variable is g, each followed by 0.
    pub fn write(self, g: Literal, slots: &mut Vec<i32>) {
        match self {
            Gate::Truth => slots.extend([g, 0]),
            Gate::Free => {}
            Gate::And(a, b) => slots.extend([-g, a, 0, -g, b, 0, g, -a, -b, 0]),
            Gate::Xor(a, b) => slots.extend([-g, a, b, 0, -g, -a, -b, 0, g, -a, b, 0, g, a, -b, 0]),
            Gate::Mux(c, a, b) => slots.extend([-g, -c, a, 0, -g, c, b, 0, g, -c, -a, 0, g, c, -b, 0]),
            Gate::Maj(a, b, c) => {
                slots.extend([-g, a, b, 0, -g, a, c, 0, -g, b, c, 0]);
                slots.extend([g, -a, -b, 0, g, -a, -c, 0, g, -b, -c, 0]);
            }
        }
    }

    /// The gate's value over those of earlier variables; a free bit takes the next of the bits given.
    pub fn value(self, model: &[u8], bits: &mut impl Iterator<Item = bool>) -> bool {
        let is = |l: Literal| holds(model, l);
        match self {
            Gate::Truth => true,
            Gate::Free => bits.next().expect("one bit for each free variable"),
            Gate::And(a, b) => is(a) && is(b),
            Gate::Xor(a, b) => is(a) != is(b),
            Gate::Mux(c, a, b) => is(if is(c) { a } else { b }),
            Gate::Maj(a, b, c) => u8::from(is(a)) + u8::from(is(b)) + u8::from(is(c)) >= 2,
        }
    }
}

/// Whether a literal is true in a model: the byte of variable v is at v - 1.
pub fn holds(model: &[u8], literal: Literal) -> bool {
    (model[literal.unsigned_abs() as usize - 1] == 1) == (literal > 0)
}

/// Gates in order of making.
pub struct Circuit {
    pub gates: Vec<Gate>,
}

impl Circuit {
    pub fn new() -> Circuit {
        Circuit { gates: vec![Gate::Truth] }
    }

    fn make(&mut self, gate: Gate) -> Literal {
        self.gates.push(gate);
        self.gates.len() as Literal
    }

    pub fn free(&mut self) -> Literal {
        self.make(Gate::Free)
    }

    pub fn and(&mut self, a: Literal, b: Literal) -> Literal {
        self.make(Gate::And(a, b))
    }

    pub fn xor(&mut self, a: Literal, b: Literal) -> Literal {
        self.make(Gate::Xor(a, b))
    }

    pub fn mux(&mut self, c: Literal, a: Literal, b: Literal) -> Literal {
        self.make(Gate::Mux(c, a, b))
    }

    pub fn maj(&mut self, a: Literal, b: Literal, c: Literal) -> Literal {
        self.make(Gate::Maj(a, b, c))
    }
}

impl Default for Circuit {
    fn default() -> Circuit {
        Circuit::new()
    }
}
