//! What a case does: it makes some input at random and asks about it.

mod blocks;
mod numbers;
mod prices;
mod rows;
mod sheets;
mod tallies;
mod writing;

use crate::compare::Compare;
use crate::laws;

/// Runs one case, which the seed and the case's number decide alone.
pub fn run(seed: u64, case: u64) -> Compare {
    let mut compare = Compare::new(seed, case);
    // Lists of 65,535 rows and more are large, so they come rarely.
    if compare.random.one_in(1200) {
        writing::many_rows(&mut compare);
        return compare;
    }
    match compare.random.below(120) {
        0..=9 => numbers::numbers(&mut compare),
        10..=17 => blocks::good(&mut compare),
        18..=39 => blocks::damaged(&mut compare),
        40 => blocks::cut_everywhere(&mut compare),
        41..=50 => rows::rows(&mut compare),
        51..=63 => writing::writing(&mut compare),
        64..=75 => tallies::tallies(&mut compare),
        76..=91 => sheets::sheets(&mut compare),
        92..=95 => laws::merges(&mut compare),
        96..=99 => laws::cuts(&mut compare),
        100..=112 => prices::prices(&mut compare),
        _ => laws::price_cuts(&mut compare),
    }
    compare
}
