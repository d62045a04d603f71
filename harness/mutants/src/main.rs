//! Wrong variants of the plain implementation, each of which the comparisons must catch.

use harness::compare::{calls, programs};
use harness::demand;
use harness::library::{Library, Programs};
use harness::random::Random;
use harness::record;
use harness::report::Report;
use std::panic::{catch_unwind, AssertUnwindSafe};
use std::process::ExitCode;

/// What a mutant has to be.
pub trait Mutant: Library + Programs {}
impl<T: Library + Programs> Mutant for T {}

#[allow(dead_code, unused, clippy::all)]
mod made {
    use super::{record, Mutant};
    include!(concat!(env!("OUT_DIR"), "/mutants.rs"));
}

const ROUNDS: usize = 4000;
/// Rounds in which a wrong meaning must show; where none is expected, fewer are tried.
const MEANT: usize = 400;
const GLANCE: usize = 4;

/// Variants that mean something else: demand 3 must show these without the plain implementation beside them.
const WRONG_IN_MEANING: &[&str] = &[
    "and_with_half_its_clauses",
    "xor_with_half_its_clauses",
    "mux_with_half_its_clauses",
    "maj_with_half_its_clauses",
    "choice_turned_round",
    "difference_without_the_carry",
    "last_unit_always_true",
    "natural_with_a_true_sign",
    "numerators_compared_as_they_are",
    "product_at_the_wider_width",
    "product_one_bit_short",
    "sign_compared_like_the_others",
];

/// The comparison that shows the mutant to be wrong.
fn caught(mutant: &mut dyn Mutant, seed: u64) -> Option<String> {
    first_difference(ROUNDS, seed, |random, report| {
        calls::round(random, mutant, report);
        programs::round(random, mutant, report);
    })
}

/// The sentence of demand 3 that the mutant does not meet.
fn misses_demand(mutant: &mut dyn Mutant, rounds: usize, seed: u64) -> Option<String> {
    first_difference(rounds, seed, |random, report| {
        demand::tiny_table(random, mutant, report);
        demand::small_table(random, mutant, None, report);
    })
}

/// The first line of the first difference, in so many rounds; a panic is one.
fn first_difference(rounds: usize, seed: u64, mut round: impl FnMut(&mut Random, &mut Report)) -> Option<String> {
    let mut random = Random::new(seed);
    for _ in 0..rounds {
        let mut report = Report::default();
        if catch_unwind(AssertUnwindSafe(|| round(&mut random, &mut report))).is_err() {
            return Some("it panics".to_string());
        }
        if let Some(difference) = report.differences.first() {
            return Some(difference.lines().next().unwrap_or("").to_string());
        }
    }
    None
}

fn main() -> ExitCode {
    std::panic::set_hook(Box::new(|_| {}));
    let seed = std::env::var("SEED").ok().and_then(|s| s.parse().ok()).unwrap_or(1);
    let (mut missed, mut shown) = (0, 0);
    for (name, make) in made::ALL {
        let by = caught(&mut *make(), seed);
        println!("mutant {name}: {}", by.as_deref().unwrap_or("NOT CAUGHT"));
        missed += usize::from(by.is_none());
        let meant = WRONG_IN_MEANING.contains(name);
        if let Some(sentence) = misses_demand(&mut *make(), if meant { MEANT } else { GLANCE }, seed) {
            println!("    and by itself: {sentence}");
            shown += usize::from(meant && sentence.starts_with("demand 3"));
        }
    }
    let (all, wrong) = (made::ALL.len(), WRONG_IN_MEANING.len());
    println!("mutants: {} of {all} caught, {shown} of {wrong} by what they mean, too (SEED={seed})", all - missed);
    if missed == 0 && shown == wrong {
        ExitCode::SUCCESS
    } else {
        ExitCode::FAILURE
    }
}
