//! Keys, lots, spans and the light count.

use crate::compare::Compare;
use crate::make::{blocks, lots};
use crate::random::Random;

pub fn numbers(compare: &mut Compare) {
    for _ in 0..4 {
        keys(compare);
        lot(compare);
        span(compare);
        let lighting = compare.random.draw() as u16;
        compare.light_count(lighting);
    }
}

fn keys(compare: &mut Compare) {
    let key = lots::any_key(&mut compare.random);
    compare.key_split(key);
    let random = &mut compare.random;
    let mut coordinates = lots::block_coordinates(random);
    if random.one_in(3) {
        let axis = random.below(3);
        coordinates[axis] = match random.below(2) {
            0 => random.pick(&[-2049, -2048, 2047, 2048, i32::MIN, i32::MAX, 4096]),
            _ => random.draw() as i32,
        };
    }
    let [x, y, z] = coordinates;
    compare.key_join(x, y, z);
}

/// A lot, and nodes at its ends, beside them and anywhere.
fn lot(compare: &mut Compare) {
    let random = &mut compare.random;
    let near = lots::block_coordinates(random);
    let lot = lots::lot(random, near);
    for _ in 0..3 {
        let random = &mut compare.random;
        let axis = |random: &mut Random, least: i32, greatest: i32| match random.below(7) {
            0 => least,
            1 => greatest,
            2 => least.saturating_sub(1),
            3 => greatest.saturating_add(1),
            4 => lots::any_coordinate(random),
            _ => random.between(least.min(greatest).into(), least.max(greatest).into()) as i32,
        };
        let x = axis(random, lot.x0, lot.x1);
        let y = axis(random, lot.y0, lot.y1);
        let z = axis(random, lot.z0, lot.z1);
        compare.lot_has(lot, x, y, z);
    }
}

fn span(compare: &mut Compare) {
    let random = &mut compare.random;
    let second = blocks::second(random);
    let span = lots::span(random, second);
    compare.span_has(span, second);
    compare.span_has(span, second.wrapping_add(1));
    compare.span_has(span, span.from);
    compare.span_has(span, span.until);
    compare.span_has(span, 0xffff_ffff);
}
