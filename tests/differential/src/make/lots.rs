//! Keys, lots and spans.

use crate::random::Random;
use anowhetele::raw::{Lot, Span};

/// Coordinates of a block, many at the ends of the world.
pub fn block_coordinates(random: &mut Random) -> [i32; 3] {
    [0; 3].map(|_| match random.below(3) {
        0 => random.pick(&[-2048, -2047, -1, 0, 1, 2046, 2047]),
        1 => random.between(-3, 3) as i32,
        _ => random.between(-2048, 2047) as i32,
    })
}

/// The number that the formula gives, for any coordinates; not judged.
pub fn key_of([x, y, z]: [i32; 3]) -> i64 {
    (i64::from(z) * 4096 + i64::from(y)) * 4096 + i64::from(x)
}

/// Any key: mostly good ones, and those around both ends of the range and of s64.
pub fn any_key(random: &mut Random) -> i64 {
    const LEAST: i64 = -34_368_129_024;
    const GREATEST: i64 = 34_351_347_711;
    match random.below(6) {
        0 => random.pick(&[LEAST, LEAST - 1, GREATEST, GREATEST + 1, i64::MIN, i64::MAX, -LEAST, 1 << 36]),
        1 => random.pick(&[-1, 0, 1, 2047, 2048, -2048, -2049, -33_550_336, i64::MIN + 1, i64::MAX + LEAST]),
        2 => random.draw() as i64 >> random.below(40),
        _ => key_of(block_coordinates(random)),
    }
}

/// Any node coordinate, also out of the world.
pub fn any_coordinate(random: &mut Random) -> i32 {
    match random.below(6) {
        0 => random.pick(&[-32_769, -32_768, 32_767, 32_768, i32::MIN, i32::MAX, 0x1_0000, -0x1_0000]),
        1 => random.draw() as i32,
        2 => random.between(-20, 20) as i32,
        _ => random.between(-32_768, 32_767) as i32,
    }
}

/// A good lot, near the block at some coordinates.
pub fn good_lot(random: &mut Random, coordinates: [i32; 3]) -> Lot {
    match random.below(8) {
        0 | 1 => Lot::WORLD,
        2 => {
            let [x, y, z] = coordinates.map(|block| 16 * block + random.below(16) as i32);
            Lot { x0: x, y0: y, z0: z, x1: x, y1: y, z1: z }
        }
        3 => {
            let [(x0, x1), (y0, y1), (z0, z1)] = [0; 3].map(|_| {
                let ends = [random.between(-32_768, 32_767) as i32, random.between(-32_768, 32_767) as i32];
                (ends[0].min(ends[1]), ends[0].max(ends[1]))
            });
            Lot { x0, y0, z0, x1, y1, z1 }
        }
        _ => {
            let [(x0, x1), (y0, y1), (z0, z1)] = coordinates.map(|block| ends_near(random, block));
            Lot { x0, y0, z0, x1, y1, z1 }
        }
    }
}

/// Ends on one axis, at or near those of a block, within the world.
fn ends_near(random: &mut Random, block: i32) -> (i32, i32) {
    let end = |random: &mut Random| {
        let place = match random.below(3) {
            0 => random.pick(&[-1, 0, 1, 14, 15, 16]),
            1 => random.between(-20, 36) as i32,
            _ => random.below(16) as i32,
        };
        (16 * block + place).clamp(-32_768, 32_767)
    };
    let (one, other) = (end(random), end(random));
    (one.min(other), one.max(other))
}

/// Mostly a good lot; else one turned round or out of the world on one axis.
pub fn lot(random: &mut Random, coordinates: [i32; 3]) -> Lot {
    let good = good_lot(random, coordinates);
    if random.one_in(10) {
        bad_lot(random, good)
    } else {
        good
    }
}

pub fn bad_lot(random: &mut Random, good: Lot) -> Lot {
    let below = random.pick(&[-32_769, i32::MIN, -40_000]);
    let above = random.pick(&[32_768, i32::MAX, 40_000]);
    match random.below(9) {
        0 => Lot { x0: good.x1, x1: good.x0 - 1, ..good },
        1 => Lot { y0: good.y1, y1: good.y0 - 1, ..good },
        2 => Lot { z0: good.z1, z1: good.z0 - 1, ..good },
        3 => Lot { x0: below, ..good },
        4 => Lot { y0: below, ..good },
        5 => Lot { z0: below, ..good },
        6 => Lot { x1: above, ..good },
        7 => Lot { y1: above, ..good },
        _ => Lot { z1: above, ..good },
    }
}

/// A good span: all time, or one that begins or ends at a second.
pub fn good_span(random: &mut Random, second: u32) -> Span {
    let (before, after) = (second.saturating_sub(1), second.saturating_add(1));
    let other = random.draw() as u32;
    let (from, until) = match random.below(12) {
        0 => (second, after),
        1 => (0, second),
        2 => (second, second),
        3 => (after, 0xffff_ffff),
        4 => (before, second),
        5 => (0, after),
        6 => (other.min(second), other.max(second)),
        7 => (0, 1_000_000),
        _ => (0, 0xffff_ffff),
    };
    Span { from, until }
}

pub fn span(random: &mut Random, second: u32) -> Span {
    let good = good_span(random, second);
    if random.one_in(20) {
        let from = good.until.max(1);
        return Span { from, until: (from - 1).min(good.from) };
    }
    good
}
