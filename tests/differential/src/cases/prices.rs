//! Rate sheets, and the prices of blocks and sheets by them, good and damaged.

use crate::compare::Compare;
use crate::make::builder::Builder;
use crate::make::rates::{self, Aim};
use crate::make::{blocks, damage, lots, sheets};

pub fn prices(compare: &mut Compare) {
    match compare.random.below(8) {
        0 => check(compare),
        1..=4 => block(compare),
        _ => sheet(compare),
    }
}

fn check(compare: &mut Compare) {
    let aim = Aim { names: &[], second: blocks::second(&mut compare.random) };
    let rates = rates::rates(&mut compare.random, &aim);
    compare.rates_check(&rates.bytes);
    for _ in 0..12 {
        let bytes = rates::damaged(&mut compare.random, &rates);
        compare.rates_check(&bytes);
    }
    // Every place at which the first rates can be cut.
    for length in 0..rates.bytes.len().min(70) {
        compare.rates_check(&rates.bytes[..length]);
    }
}

/// The rates as they are, or now and then damaged.
fn mostly_good(compare: &mut Compare, rates: &Builder) -> Vec<u8> {
    if compare.random.one_in(6) {
        rates::damaged(&mut compare.random, rates)
    } else {
        rates.bytes.clone()
    }
}

fn block(compare: &mut Compare) {
    let made = blocks::block(&mut compare.random);
    let aim = Aim { names: &made.names, second: made.head.timestamp };
    let rates = rates::rates(&mut compare.random, &aim);
    for _ in 0..4 {
        let rates = mostly_good(compare, &rates);
        let random = &mut compare.random;
        let bytes = if random.one_in(2) { damage::damaged(random, &made) } else { made.bytes.clone() };
        let coordinates = lots::block_coordinates(random);
        let key = if random.one_in(8) { lots::any_key(random) } else { lots::key_of(coordinates) };
        let part = (lots::lot(random, coordinates), lots::span(random, aim.second));
        compare.price_block(key, &bytes, &rates, part);
    }
}

fn sheet(compare: &mut Compare) {
    let with_damage = compare.random.one_in(2);
    let make = if with_damage { sheets::with_damaged_block } else { sheets::sheet };
    let made = make(&mut compare.random);
    let rates = rates::rates(&mut compare.random, &Aim { names: &made.names, second: made.second });
    for _ in 0..2 {
        let rates = mostly_good(compare, &rates);
        let random = &mut compare.random;
        let bytes = if random.one_in(3) { sheets::damaged(random, &made) } else { made.bytes.clone() };
        let part = (lots::lot(random, made.near), lots::span(random, made.second));
        compare.price_sheet(&bytes, &rates, part);
    }
}
