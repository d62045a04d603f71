//! Comparisons of an implementation with the plain one.

pub mod calls;
pub mod programs;
pub mod request;

use crate::plain::acceptance::accept;
use crate::random::Random;

/// A random table: most pass, some are damaged.
fn any_table(random: &mut Random) -> Vec<u8> {
    use crate::generate::{damage, tables};
    let taste = tables::taste(random);
    let table = tables::table(random, &taste);
    if random.percent(40) {
        return damage::damaged(random, &table);
    }
    assert!(accept(&table).is_ok(), "the generator's tables pass");
    table
}
