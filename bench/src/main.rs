//! Anowhetele beside two Rust programs that do the same job: one as anyone would write it first, one tuned.
//! All input is made here from seeds; all results must agree byte for byte, or the run stops.

mod agreement;
mod bills;
mod hostile;
mod hostile_prices;
mod library;
mod merging;
mod names;
mod obvious;
mod pricing;
mod race;
mod random;
mod reading;
mod tallies;
mod tuned;
mod tuned_merge;
mod tuned_price;
mod worlds;
mod writing;

use merging::Pair;
use pricing::Priced;
use race::{stop, Programs, Results};
use std::path::Path;

// In the order of race::NAMES.
const SHEET_PROGRAMS: Programs<[u8]> = [library::sheet, tuned::sheet, obvious::sheet];
const BLOCK_PROGRAMS: Programs<[u8]> = [library::block, tuned::block, obvious::block];
const MERGE_PROGRAMS: Programs<Pair> = [library::merge, tuned_merge::merge, obvious::merge];
const PRICE_SHEET_PROGRAMS: Programs<Priced> = [library::price_sheet, tuned_price::sheet, obvious::price_sheet];
const PRICE_BLOCK_PROGRAMS: Programs<Priced> = [library::price_block, tuned_price::block, obvious::price_block];

const RESULTS: &str = concat!(env!("CARGO_MANIFEST_DIR"), "/../target/bench/results.csv");

/// The run's number, for the results; 1 if none is given.
fn run_number() -> usize {
    let number = std::env::args().nth(1).map(|text| text.parse());
    number
        .unwrap_or(Ok(1))
        .unwrap_or_else(|_| stop("the run's number is not a number"))
}

fn main() {
    let mut results = Results::new(run_number());
    agreement::on_blocks();
    agreement::on_merges();
    agreement::on_prices();
    println!(
        "\nbest of several turns; clearing the lent buffers (two, of a merge one, of a price none) is in every time"
    );
    worlds::world_sheets(&mut results);
    worlds::busy_sheet(&mut results);
    hostile::hostile_blocks(&mut results);
    hostile::hostile_sheet(&mut results);
    merging::merges(&mut results);
    pricing::world_prices(&mut results);
    pricing::rate_counts(&mut results);
    hostile_prices::hostile_prices(&mut results);
    if let Err(error) = results.append(Path::new(RESULTS)) {
        stop(&format!("the results could not be written: {}", error));
    }
}
