//! Blocks, good and damaged: reading them, asking about them, tallying them.

use crate::compare::Compare;
use crate::make::blocks::{self, MadeBlock};
use crate::make::{damage, lots};
use anowhetele::raw::{Lot, Span};

/// A good block, asked everything; rooms for its tally are aimed at its length.
pub fn good(compare: &mut Compare) {
    let made = blocks::block(&mut compare.random);
    read(compare, &made.bytes);
    compare.sections(&made.bytes);
    for _ in 0..3 {
        node_name(compare, &made.bytes);
    }
    for _ in 0..3 {
        tally(compare, &made, &made.bytes);
    }
    let key = lots::key_of(lots::block_coordinates(&mut compare.random));
    let whole = (Lot::WORLD, Span::ALL_TIME);
    let (_, result) = compare.tally_block(key, &made.bytes, whole, 200_000);
    let room = around(compare, result.len());
    compare.tally_block(key, &made.bytes, whole, room);
}

/// A room at a length, one beside it, or one of the smallest.
pub fn around(compare: &mut Compare, length: usize) -> usize {
    match compare.random.below(6) {
        0 => compare.random.below(10),
        1 => length + 1,
        2 => length + compare.random.below(100),
        3 => length.saturating_sub(1),
        4 => compare.random.below(length + 1),
        _ => length,
    }
}

/// A block damaged in several ways, each asked of one operation.
pub fn damaged(compare: &mut Compare) {
    let made = blocks::block(&mut compare.random);
    for _ in 0..10 {
        let bytes = damage::damaged(&mut compare.random, &made);
        match compare.random.below(8) {
            0..=2 => compare.sections(&bytes),
            3 | 4 => read(compare, &bytes),
            5 => node_name(compare, &bytes),
            _ => tally(compare, &made, &bytes),
        }
    }
}

/// A block cut at the start of every field and inside it, of a very long block the first 400; of the params at some
/// entries and around both ends of each list.
pub fn cut_everywhere(compare: &mut Compare) {
    let made = blocks::block(&mut compare.random);
    let mut cuts = Vec::new();
    for field in made.fields.iter().take(400) {
        cuts.extend([field.at, field.at + field.length / 2, field.at + field.length - field.length.min(1)]);
    }
    let params = made.params();
    let param1 = made.param0_at + 4096 * made.width;
    for end in [params.start, param1, param1 + 4096, params.end] {
        cuts.extend(end - 2..=end + 2);
    }
    for _ in 0..20 {
        cuts.push(params.start + compare.random.below(params.len()));
    }
    cuts.dedup();
    for cut in cuts {
        let cut = cut.min(made.bytes.len());
        compare.sections(&made.bytes[..cut]);
    }
}

fn read(compare: &mut Compare, bytes: &[u8]) {
    let mut lengths = [4096; 3];
    if compare.random.one_in(10) {
        let list = compare.random.below(3);
        lengths[list] = compare.random.pick(&[0, 1, 4095, 4097, 5000]);
    }
    compare.read(bytes, lengths);
}

fn node_name(compare: &mut Compare, bytes: &[u8]) {
    let random = &mut compare.random;
    let index = match random.below(8) {
        0 => random.pick(&[4095, 4096, 4097, 65_535, 65_536, 1 << 32, u64::MAX]),
        1 => random.draw(),
        _ => random.below(4096) as u64,
    };
    compare.node_name(bytes, index);
}

/// Tallies with a lot and a span near the block, a room mostly large, and now and then a bad key.
fn tally(compare: &mut Compare, made: &MadeBlock, bytes: &[u8]) {
    let random = &mut compare.random;
    let coordinates = lots::block_coordinates(random);
    let key = if random.one_in(20) { lots::any_key(random) } else { lots::key_of(coordinates) };
    let lot = lots::lot(random, coordinates);
    let span = lots::span(random, made.head.timestamp);
    let room = match random.below(6) {
        0 => random.below(60),
        1 => 9,
        _ => 20_000,
    };
    compare.tally_block(key, bytes, (lot, span), room);
}
