//! Sheets like a world's to price with more and more rates, and small damaged rate sheets.

use crate::bills::BILL;
use crate::merging;
use crate::names::{modded_name, world_pool};
use crate::race::{heading, heading_beside, run, run_beside, show_growth, Beside, Race, Results, Unit};
use crate::random::Random;
use crate::worlds::{make_world, SHEETS};
use crate::{library, PRICE_SHEET_PROGRAMS};
use anowhetele::{rate_sheet, Rate};
use std::collections::BTreeMap;

/// A block or a sheet, and a rate sheet.
pub struct Priced {
    pub bytes: Vec<u8>,
    pub rates: Vec<u8>,
}

pub fn rates_of<'a>(rates: impl Iterator<Item = Rate<'a>>) -> Vec<u8> {
    rate_sheet(rates).expect("no two rates begin at one second, and no name is too long")
}

/// So many names: those of a world, but for one in ten, which has no price then, and names that no block has.
fn priced_names(random: &mut Random, count: usize) -> Vec<Vec<u8>> {
    let pool = world_pool().into_iter().enumerate();
    let known = pool.filter(|(place, _)| place % 10 != 9).map(|(_, name)| name);
    known
        .chain((0..).map(|number| modded_name(random, number)))
        .take(count)
        .collect()
}

/// So many rates, four of each name, one in each quarter of all time; before the first of them its nodes have no price.
fn world_rates(random: &mut Random, count: usize) -> Vec<u8> {
    let names = priced_names(random, count / 4);
    let places = (0..4).flat_map(|quarter| names.iter().map(move |name| (quarter << 30, name)));
    rates_of(places.map(|(start, name)| Rate {
        name,
        from: start + random.below(1 << 30) as u32,
        price: random.below(10_000) as u32,
    }))
}

/// Numbers of rates and how they are called.
const RATES: [(usize, &str); 4] = [
    (1_000, "1,000 rates"),
    (10_000, "10,000 rates"),
    (100_000, "100,000 rates"),
    (1_000_000, "1,000,000 rates"),
];

const SEED: u64 = 0xc3a5c85c97cb3127;

/// A race of pricing a sheet of so many blocks.
pub fn price_race<'a>(group: &'a str, workload: &'a str, input: &'a Priced, units: usize) -> Race<'a, Priced> {
    Race {
        group,
        workload,
        programs: PRICE_SHEET_PROGRAMS,
        input,
        unit: Unit::Block,
        units,
        room: BILL,
        spare: 0,
        turns: [10, 10, 1],
    }
}

/// The largest sheet like a world's, with more and more rates.
pub fn world_prices(results: &mut Results) {
    let (blocks, seed, _) = SHEETS[SHEETS.len() - 1];
    heading_beside("prices of the largest sheet like a world", Unit::Block);
    let (bytes, rates) = (make_world(blocks, seed), Vec::new());
    let mut priced = Priced { bytes, rates };
    for (count, workload) in RATES {
        priced.rates = world_rates(&mut Random(SEED), count);
        let race = price_race("price of a sheet", workload, &priced, blocks);
        let tally = library::sheet_beside;
        run_beside(&race, &Beside { tally, room: 8192 }, results);
    }
}

/// A sheet of one block with more and more rates: nearly all of the time goes into the rates.
pub fn rate_counts(results: &mut Results) {
    heading("prices of a sheet of one block, of the rates", Unit::Rate);
    let (bytes, rates) = (make_world(1, SHEETS[0].1), Vec::new());
    let mut priced = Priced { bytes, rates };
    let best = RATES.map(|(count, workload)| {
        priced.rates = world_rates(&mut Random(SEED), count);
        let race = Race {
            unit: Unit::Rate,
            turns: [20, 20, 5],
            ..price_race("price of a block", workload, &priced, count)
        };
        (count, run(&race, results))
    });
    show_growth(Unit::Rate, best[1], best[3]);
}

/// Some rates of a world's names; of some of them all begin late.
pub fn few_rates(random: &mut Random) -> Vec<u8> {
    let pool = world_pool();
    let mut rates = BTreeMap::new();
    for _ in 0..1 + random.below(60) {
        let name = &pool[random.below(pool.len())][..];
        let from = [0, 1, random.below(1 << 32) as u32, u32::MAX][random.below(4)];
        rates.insert((name, from), random.below(1 << 32) as u32);
    }
    rates_of(
        rates
            .into_iter()
            .map(|((name, from), price)| Rate { name, from, price }),
    )
}

/// Rates, of which half are damaged.
pub fn damaged_rates(random: &mut Random) -> Vec<u8> {
    let mut rates = few_rates(random);
    if random.below(2) == 0 {
        merging::damage(random, &mut rates);
    }
    rates
}
