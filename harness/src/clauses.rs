//! Clauses and full assignments: which assignments meet which clauses. Where there are few variables, all assignments are tried, one after
//! the other. Nothing here infers one variable from others: what can't be tried is asked of a bought solver.

use std::collections::BTreeSet;

/// One byte a variable, 0 or 1; that of variable v is at v - 1.
pub type Model = Vec<u8>;

/// The variables at most of which all assignments are tried: two to the power of 20 take some hundredths of a second.
pub const FEW: usize = 20;

/// Clauses over so many variables.
pub struct Clauses {
    pub variables: usize,
    pub list: Vec<Vec<i32>>,
}

/// A clause as two sets of variables: those that it wants true, and those that it wants false.
struct Wants {
    true_ones: u32,
    false_ones: u32,
}

impl Wants {
    fn new(clause: &[i32]) -> Wants {
        let mut wants = Wants { true_ones: 0, false_ones: 0 };
        for literal in clause {
            let ones = if *literal > 0 { &mut wants.true_ones } else { &mut wants.false_ones };
            *ones |= 1 << (literal.abs() - 1);
        }
        wants
    }

    fn met_by(&self, assignment: u32) -> bool {
        assignment & self.true_ones | !assignment & self.false_ones != 0
    }
}

/// Whether a literal is true in a model.
pub fn holds(model: &[u8], literal: i32) -> bool {
    model[literal.unsigned_abs() as usize - 1] == u8::from(literal > 0)
}

pub fn meets(model: &[u8], clause: &[i32]) -> bool {
    clause.iter().any(|&l| holds(model, l))
}

/// The literals that are true in a model.
pub fn literals(model: &[u8]) -> impl Iterator<Item = i32> + '_ {
    (1..).zip(model).map(|(v, &byte)| if byte == 1 { v } else { -v })
}

impl Clauses {
    pub fn met_by(&self, model: &[u8]) -> bool {
        self.list.iter().all(|clause| meets(model, clause))
    }

    /// The assignments that meet all clauses. Every assignment is tried.
    pub fn met_by_which(&self) -> BTreeSet<Model> {
        assert!(self.variables <= FEW, "{} variables are too many to try all assignments", self.variables);
        let clauses: Vec<Wants> = self.list.iter().map(|clause| Wants::new(clause)).collect();
        let all = 0..1u32 << self.variables;
        let bytes = |assignment: u32| (0..self.variables).map(|i| (assignment >> i & 1) as u8).collect();
        all.filter(|&assignment| clauses.iter().all(|clause| clause.met_by(assignment))).map(bytes).collect()
    }

    /// These clauses and more.
    pub fn and(&self, more: impl IntoIterator<Item = Vec<i32>>) -> Clauses {
        Clauses { variables: self.variables, list: self.list.iter().cloned().chain(more).collect() }
    }

    /// The clauses and, for each of the models, one that it alone does not meet.
    pub fn but<'a>(&self, models: impl IntoIterator<Item = &'a Model>) -> Clauses {
        self.and(models.into_iter().map(|model| literals(model).map(|l| -l).collect()))
    }

    /// The text that a solver reads.
    pub fn dimacs(&self) -> String {
        let line = |clause: &Vec<i32>| clause.iter().map(|l| format!("{l} ")).collect::<String>() + "0\n";
        let body: String = self.list.iter().map(line).collect();
        format!("p cnf {} {}\n{body}", self.variables, self.list.len())
    }
}

#[cfg(test)]
mod tests {
    use super::{Clauses, Model};

    fn met_by_which(variables: usize, list: &[&[i32]]) -> Vec<Model> {
        let clauses = Clauses { variables, list: list.iter().map(|clause| clause.to_vec()).collect() };
        let found = clauses.met_by_which();
        assert!(found.iter().all(|model| clauses.met_by(model)));
        assert!(clauses.but(&found).met_by_which().is_empty());
        found.into_iter().collect()
    }

    #[test]
    fn all_assignments_are_tried() {
        assert_eq!(met_by_which(2, &[]).len(), 4);
        assert_eq!(met_by_which(2, &[&[1, 2], &[-1, -2]]), [[0, 1], [1, 0]]);
        assert_eq!(met_by_which(2, &[&[1, 1], &[2, -2]]), [[1, 0], [1, 1]]);
        assert_eq!(met_by_which(1, &[&[1], &[-1]]).len(), 0);
        assert_eq!(met_by_which(2, &[&[1, 2], &[1, -2], &[-1, 2], &[-1, -2]]).len(), 0);
        assert_eq!(met_by_which(2, &[&[]]).len(), 0);
        assert_eq!(met_by_which(3, &[&[1, 2, 3]]).len(), 7);
    }

    #[test]
    fn texts_for_solvers() {
        let clauses = Clauses { variables: 3, list: vec![vec![1], vec![-3, 2]] };
        assert_eq!(clauses.but(&[vec![1, 0, 0]]).dimacs(), "p cnf 3 3\n1 0\n-3 2 0\n-1 2 3 0\n");
    }
}
