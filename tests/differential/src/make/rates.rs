//! Rate sheets, good and damaged.

use super::builder::{Builder, Kind};
use super::{blocks, damage, listing, names};
use crate::random::Random;
use std::collections::BTreeMap;

/// How many fields a row has: length, name, from-second, price.
const ROW: usize = 4;

/// What rates are aimed at: the names of some blocks, and the second at which one of them was saved.
pub struct Aim<'a> {
    pub names: &'a [Vec<u8>],
    pub second: u32,
}

/// A well-formed rate sheet, field by field. Names come with one from-second or with several.
pub fn rates(random: &mut Random, aim: &Aim) -> Builder {
    let mut rates = BTreeMap::new();
    for _ in 0..name_count(random) {
        let name = name(random, aim.names);
        for _ in 0..random.pick(&[1, 1, 2, 3, 5]) {
            rates.insert((name.clone(), from_second(random, aim.second)), price(random));
        }
    }
    let mut out = Builder::default();
    out.run(Kind::Fixed, b"RTE");
    out.u16(Kind::Fixed, 1);
    out.u32(Kind::Count, rates.len() as u32);
    for ((name, from), price) in rates {
        out.counted(&name);
        out.u32(Kind::Free, from);
        out.u32(Kind::Free, price);
    }
    out
}

fn name_count(random: &mut Random) -> usize {
    match random.below(500) {
        0..=49 => 0,
        50..=489 => 1 + random.below(8),
        490..=498 => 20 + random.below(80),
        _ => 1000 + random.below(1000),
    }
}

/// A name of the blocks, or any other.
fn name(random: &mut Random, known: &[Vec<u8>]) -> Vec<u8> {
    if known.is_empty() || random.one_in(3) {
        return names::name(random);
    }
    known[random.below(known.len())].clone()
}

/// Mostly at a second or beside it.
fn from_second(random: &mut Random, second: u32) -> u32 {
    match random.below(8) {
        0 => random.pick(&[0, u32::MAX]),
        1 => second.saturating_sub(1),
        2 => second.saturating_add(1),
        3 | 4 => second,
        _ => blocks::second(random),
    }
}

fn price(random: &mut Random) -> u32 {
    match random.below(4) {
        0 => random.pick(&[0, 1, u32::MAX]),
        1 => random.draw() as u32,
        _ => random.below(5000) as u32,
    }
}

/// The rate sheet's bytes with one damage.
pub fn damaged(random: &mut Random, rates: &Builder) -> Vec<u8> {
    if random.one_in(8) {
        return with_equal_rows(random, rates);
    }
    listing::damaged(random, rates, ROW)
}

/// A rate gets the from-second of the rate before it, which has the same name and perhaps another price.
fn with_equal_rows(random: &mut Random, rates: &Builder) -> Vec<u8> {
    let mut bytes = rates.bytes.clone();
    let rows = listing::rows(rates, ROW);
    let same_name = |pair: &&[&[_]]| rates.run_of(pair[0][1]) == rates.run_of(pair[1][1]);
    let pairs: Vec<_> = rows.windows(2).filter(same_name).collect();
    if !pairs.is_empty() {
        let pair = pairs[random.below(pairs.len())];
        let from = damage::value_of(&bytes, pair[0][2]);
        damage::put(&mut bytes, pair[1][2], from);
    }
    bytes
}
