//! Rows of the four lists of a block.

use super::builder::{Builder, Kind};
use super::names;
use crate::random::Random;
use std::collections::HashSet;

/// Lines that look like an inventory's end and are none, and usual ones.
const LINES: [&[u8]; 14] = [
    b"EndInventoryList",
    b" EndInventory",
    b"EndInventory\r",
    b"EndInventory ",
    b"EndInventory\0",
    b"xEndInventory",
    b"EndInventor",
    b"endInventory",
    b"",
    b"List main 4",
    b"Item default:dirt 99",
    b"Empty",
    b"EndInventoryEndInventory",
    b"\xff\0\x01",
];

pub fn inventory(random: &mut Random) -> Vec<u8> {
    let mut text = Vec::new();
    for _ in 0..random.pick(&[0, 0, 1, 2, 3, 6]) {
        text.extend(random.pick(&LINES));
        text.push(b'\n');
    }
    text.extend(b"EndInventory\n");
    text
}

/// How many rows a list has: mostly few.
pub fn row_count(random: &mut Random) -> usize {
    match random.below(200) {
        0..=69 => 0,
        70..=109 => 1,
        110..=197 => 2 + random.below(4),
        198 => 20 + random.below(60),
        _ => random.pick(&[255, 256, 257]),
    }
}

/// Positions in any order, each once, both ends among them now and then.
fn positions(random: &mut Random, count: usize) -> Vec<u16> {
    let mut taken = HashSet::new();
    let mut positions = Vec::new();
    while positions.len() < count {
        let position = match random.below(8) {
            0 => random.pick(&[0, 1, 255, 256, 4094, 4095]),
            _ => random.below(4096) as u16,
        };
        if taken.insert(position) {
            positions.push(position);
        }
    }
    positions
}

/// Some bytes of a run: short, sometimes a text with newlines, rarely long.
fn content(random: &mut Random, greatest: usize) -> Vec<u8> {
    match random.below(300) {
        0 => {
            let length = greatest - random.below(3);
            random.bytes(length)
        }
        1..=60 => Vec::new(),
        61..=100 => b"a text\nEndInventory\nand more\n".to_vec(),
        _ => {
            let length = random.below(30);
            random.bytes(length)
        }
    }
}

pub fn name_rows(mapping: &[(u16, Vec<u8>)]) -> Builder {
    let mut rows = Builder::default();
    for (id, name) in mapping {
        rows.u16(Kind::Id, *id);
        rows.counted(name);
    }
    rows
}

/// Name rows of no block in particular.
pub fn any_name_rows(random: &mut Random, count: usize) -> Builder {
    let mapping: Vec<_> = (0..count).map(|_| (random.draw() as u16, names::name(random))).collect();
    name_rows(&mapping)
}

pub fn metadata_rows(random: &mut Random, version: u8, count: usize) -> Builder {
    let mut rows = Builder::default();
    for position in positions(random, count) {
        rows.u16(Kind::MetadataPosition, position);
        if version == 22 {
            rows.u16(Kind::Free, random.pick(&[1, 14, 15, 16, 17, 0, 65_535]));
            rows.counted(&content(random, 65_535));
        } else {
            variables(&mut rows, random, version >= 28);
            rows.run(Kind::Inventory, &inventory(random));
        }
    }
    rows
}

fn variables(rows: &mut Builder, random: &mut Random, with_private: bool) {
    let count = random.pick(&[0, 0, 1, 1, 2, 3, 5]);
    rows.u32(Kind::Count, count);
    for _ in 0..count {
        rows.counted(&content(random, 300));
        let value = content(random, 70_000);
        rows.u32(Kind::Length, value.len() as u32);
        rows.run(Kind::Run, &value);
        if with_private {
            rows.u8(Kind::Fixed, random.below(2) as u8);
        }
    }
}

pub fn object_rows(random: &mut Random, count: usize) -> Builder {
    let mut rows = Builder::default();
    for _ in 0..count {
        rows.u8(Kind::Free, random.pick(&[1, 7, 0, 255]));
        for _ in 0..3 {
            rows.u32(Kind::Free, any_number(random));
        }
        rows.counted(&content(random, 65_535));
    }
    rows
}

pub fn timer_rows(random: &mut Random, count: usize) -> Builder {
    let mut rows = Builder::default();
    for position in positions(random, count) {
        rows.u16(Kind::TimerPosition, position);
        rows.u32(Kind::Free, any_number(random));
        rows.u32(Kind::Free, any_number(random));
    }
    rows
}

fn any_number(random: &mut Random) -> u32 {
    match random.below(2) {
        0 => random.pick(&[0, 1, 0x7fff_ffff, 0x8000_0000, 0xffff_ffff, 0x0a0a_0a0a]),
        _ => random.draw() as u32,
    }
}
