//! Tallies: checking, adding and merging.

use super::blocks::around;
use crate::compare::Compare;
use crate::make::builder::Builder;
use crate::make::{listing, names, tallies};

pub fn tallies(compare: &mut Compare) {
    let one = tallies::tally(&mut compare.random, tallies::count);
    let other = tallies::tally(&mut compare.random, tallies::count);
    check(compare, &one);
    for _ in 0..8 {
        add(compare, &one);
    }
    merge(compare, &one, &other);
    adding_up(compare);
}

fn check(compare: &mut Compare, tally: &Builder) {
    compare.tally_check(&tally.bytes);
    for _ in 0..4 {
        let bytes = tallies::damaged(&mut compare.random, tally);
        compare.tally_check(&bytes);
    }
}

/// A name of the tally, or any other; rarely one at or above the greatest length.
fn name_for(compare: &mut Compare, tally: &Builder) -> Vec<u8> {
    let random = &mut compare.random;
    if random.one_in(60) {
        let length = random.pick(&[65_534, 65_535, 65_536, 65_537]);
        return vec![b'l'; length];
    }
    let rows = listing::rows(tally, tallies::ROW);
    if rows.is_empty() || random.one_in(2) {
        return names::name(random);
    }
    let mut name = tally.run_of(rows[random.below(rows.len())][1]).to_vec();
    match random.below(4) {
        0 => name.push(random.pick(b"\0a\xff")),
        1 => drop(name.pop()),
        _ => (),
    }
    name
}

/// One count, in a buffer with room for it or a byte less; the stated length is mostly right.
fn add(compare: &mut Compare, tally: &Builder) {
    let name = name_for(compare, tally);
    let random = &mut compare.random;
    let count = match random.below(8) {
        0 => 0,
        1 => u64::MAX,
        2 => tallies::count(random),
        _ => 1 + random.below(4096) as u64,
    };
    let bytes = if random.one_in(6) { tallies::damaged(random, tally) } else { tally.bytes.clone() };
    let row = 2 + name.len() + 8;
    let slack = match random.below(6) {
        0 => 0,
        1 => row - 1,
        2 => row + 1,
        3 => row + random.below(50),
        _ => row,
    };
    let room = bytes.len() + slack;
    let stated = match random.below(24) {
        0 => random.pick(&[0, 8, 9, room, room + 1, room + 1000]) as u64,
        1 => random.pick(&[u64::MAX, 1 << 32, 1 << 63]),
        2 => (bytes.len() as u64).wrapping_add(random.pick(&[1, u64::MAX])),
        _ => bytes.len() as u64,
    };
    compare.tally_add(&bytes, room, stated, &name, count);
}

fn merge(compare: &mut Compare, one: &Builder, other: &Builder) {
    let (_, sum) = compare.tally_merge(&one.bytes, &other.bytes, 100_000);
    for _ in 0..2 {
        let room = around(compare, sum.len());
        compare.tally_merge(&other.bytes, &one.bytes, room);
    }
    let spoiled = tallies::damaged(&mut compare.random, one);
    let room = around(compare, sum.len());
    compare.tally_merge(&spoiled, &other.bytes, room);
    compare.tally_merge(&other.bytes, &spoiled, room);
    compare.tally_merge(&one.bytes, &one.bytes, room);
}

/// Many counts one after the other, each in the tally that the one before left.
fn adding_up(compare: &mut Compare) {
    let mut tally = b"TLY\0\x01\0\0\0\0".to_vec();
    for _ in 0..6 {
        let name = names::name(&mut compare.random);
        let count = tallies::small_count(&mut compare.random);
        let stated = tally.len() as u64;
        let room = tally.len() + name.len() + 10 + compare.random.below(3);
        let (answer, after) = compare.tally_add(&tally, room, stated, &name, count);
        if answer.number == 0 {
            tally = after;
        }
    }
}
