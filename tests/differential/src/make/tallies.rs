//! Tallies, good and damaged.

use super::builder::{Builder, Kind};
use super::{damage, listing, names};
use crate::random::Random;
use std::collections::BTreeMap;

/// How many fields a row has: length, name, count.
pub const ROW: usize = 3;

/// Counts, many of them near the end of u64.
pub fn count(random: &mut Random) -> u64 {
    match random.below(8) {
        0 => u64::MAX - random.below(3) as u64,
        1 => (1 << 63) - 1 + random.below(3) as u64,
        2 => (random.draw() >> random.below(64)).max(1),
        _ => 1 + random.below(5000) as u64,
    }
}

/// Counts so small that no sum of them is too large.
pub fn small_count(random: &mut Random) -> u64 {
    1 + random.below(100_000) as u64
}

fn row_count(random: &mut Random) -> usize {
    match random.below(500) {
        0..=99 => 0,
        100..=489 => 1 + random.below(8),
        490..=498 => 20 + random.below(80),
        _ => 1000 + random.below(1000),
    }
}

/// A well-formed tally, field by field.
pub fn tally(random: &mut Random, count: fn(&mut Random) -> u64) -> Builder {
    let mut rows = BTreeMap::new();
    for _ in 0..row_count(random) {
        rows.insert(names::name(random), count(random));
    }
    let mut out = Builder::default();
    out.run(Kind::Fixed, b"TLY");
    out.u16(Kind::Fixed, 1);
    out.u32(Kind::Count, rows.len() as u32);
    for (name, count) in rows {
        out.counted(&name);
        out.u64(Kind::Free, count);
    }
    out
}

/// The tally's bytes with one damage.
pub fn damaged(random: &mut Random, tally: &Builder) -> Vec<u8> {
    let last = tally.fields[tally.fields.len() - 1];
    if tally.fields.len() > listing::HEAD && random.one_in(8) {
        // A count of none.
        let mut bytes = tally.bytes.clone();
        damage::put(&mut bytes, last, 0);
        return bytes;
    }
    listing::damaged(random, tally, ROW)
}
