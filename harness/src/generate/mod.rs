//! Random inputs, right and damaged.

pub mod damage;
pub mod models;
pub mod tables;
pub mod texts;
pub mod values;

use crate::random::Random;

/// A length for a buffer that needs some: mostly that, and all sides of it.
pub fn length(random: &mut Random, needed: usize) -> usize {
    match random.below(20) {
        0 => 0,
        1 | 2 => needed.saturating_sub(1),
        3 => random.below(needed + 1),
        4 | 5 => needed + 1,
        6 => needed + random.below(100),
        _ => needed,
    }
}

/// A length that is enough: what is needed, or more.
pub fn enough(random: &mut Random, needed: usize) -> usize {
    if random.percent(30) {
        needed + random.below(9)
    } else {
        needed
    }
}
