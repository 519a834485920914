//! Rates and blocks made to be slow to price.

use crate::hostile::{falling, hostile_name};
use crate::pricing::{price_race, rates_of, Priced};
use crate::race::{heading_beside, run_beside, Beside, Race, Results, Unit};
use crate::random::Random;
use crate::reading::NODES;
use crate::tallies::{AROUND, HEAD};
use crate::worlds::{make_world, SHEETS};
use crate::writing::{make_sheet, Plain};
use crate::{library, PRICE_BLOCK_PROGRAMS};
use anowhetele::Rate;

/// So many rates of stone, which stands in most blocks, and none of any other name.
fn one_name(random: &mut Random, count: usize) -> Priced {
    let (blocks, seed, _) = SHEETS[3];
    let step = (u32::MAX / count as u32) as usize;
    let rate = |place: usize| Rate {
        name: b"default:stone",
        from: (place * step + random.below(step)) as u32,
        price: random.below(10_000) as u32,
    };
    Priced {
        bytes: make_world(blocks, seed),
        rates: rates_of((0..count).map(rate)),
    }
}

/// A name as long as one can be, alike up to its last bytes.
fn long_name(number: usize) -> Vec<u8> {
    let mut name = vec![b'n'; 65535 - 4];
    name.extend(format!("{:04}", number).bytes());
    name
}

/// Rates of so many names of 65,535 bytes, and blocks that use thirty of them each.
fn long_names(random: &mut Random, blocks: usize, count: usize) -> Priced {
    let names: Vec<Vec<u8>> = (0..count).map(long_name).collect();
    let bytes = make_sheet(random, blocks, |_, place| {
        let used = (0..30).map(|row| (row as u16, names[(30 * place + 7 * row) % count].clone()));
        let ids = (0..NODES).map(|node| (node % 30) as u16);
        Plain::without_rows(1, used.collect(), ids.collect())
    });
    let rates = rates_of(names.iter().map(|name| Rate {
        name,
        from: 0,
        price: 3,
    }));
    Priced { bytes, rates }
}

/// A block that uses 4,096 names, each of which has two rates.
fn many_names(random: &mut Random) -> Priced {
    let names: Vec<Vec<u8>> = (0..5000).map(hostile_name).collect();
    let rates = names
        .iter()
        .flat_map(|name| [0, 2].map(|from| Rate { name, from, price: 5 }));
    Priced {
        bytes: falling(random, NODES),
        rates: rates_of(rates),
    }
}

const GROUP: &str = "hostile price";

pub fn hostile_prices(results: &mut Results) {
    heading_beside("hostile rates and blocks, priced", Unit::Block);
    let mut random = Random(0xf39cc0605cedc834);
    let (one, tally) = (one_name(&mut random, 100_000), library::sheet_beside);
    let race = price_race(GROUP, "100,000 rates of one name", &one, SHEETS[3].0);
    run_beside(&race, &Beside { tally, room: 8192 }, results);
    let (blocks, names) = (40, 300);
    let long = long_names(&mut random, blocks, names);
    let race = price_race(GROUP, "300 names of 65,535 bytes", &long, blocks);
    let room = HEAD + names * (65_535 + AROUND);
    run_beside(&race, &Beside { tally, room }, results);
    let (many, tally) = (many_names(&mut random), library::block_beside);
    let race = Race {
        programs: PRICE_BLOCK_PROGRAMS,
        turns: [50, 50, 20],
        ..price_race(GROUP, "a block of 4,096 names", &many, 1)
    };
    run_beside(&race, &Beside { tally, room: 131_072 }, results);
}
