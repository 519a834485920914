//! The writer: parts that were read from good blocks, and the same parts damaged.

use super::blocks::around;
use crate::compare::Compare;
use crate::make::blocks;
use crate::model::writing::Parts;
use crate::random::Random;
use anowhetele::raw::{Head, Part, LIST_COUNTED};

/// Parts that can be changed.
#[derive(Clone)]
struct OwnParts {
    head: Head,
    param0: Vec<u16>,
    param1: Vec<u8>,
    param2: Vec<u8>,
    names: Vec<u8>,
    metadata: Vec<u8>,
    objects: Vec<u8>,
    timers: Vec<u8>,
}

impl OwnParts {
    fn lent(&self) -> Parts<'_> {
        Parts {
            head: self.head,
            param0: &self.param0,
            param1: &self.param1,
            param2: &self.param2,
            names: &self.names,
            metadata: &self.metadata,
            objects: &self.objects,
            timers: &self.timers,
        }
    }

    fn sections(&mut self) -> [&mut Vec<u8>; 4] {
        [&mut self.names, &mut self.metadata, &mut self.objects, &mut self.timers]
    }

    fn length(&self) -> usize {
        40 + 4 * 4096 + self.names.len() + self.metadata.len() + self.objects.len() + self.timers.len()
    }
}

pub fn writing(compare: &mut Compare) {
    let made = blocks::block(&mut compare.random);
    let Some(parts) = read_parts(compare, &made.bytes) else {
        compare.note("a good block was refused".to_string(), vec![("block", made.bytes)]);
        return;
    };
    round_trip(compare, &parts, &made.bytes);
    let room = around(compare, made.bytes.len());
    compare.write(&parts.lent(), room);
    for _ in 0..8 {
        let mut spoiled = parts.clone();
        for _ in 0..compare.random.pick(&[1, 1, 1, 2]) {
            spoil(&mut compare.random, &mut spoiled);
        }
        let room = if compare.random.one_in(8) { compare.random.below(20_000) } else { spoiled.length() };
        let (answer, bytes) = compare.write(&spoiled.lent(), room);
        if answer.number == 0 {
            reads_back(compare, &spoiled, &bytes);
        }
    }
}

/// What the library reads of a block, as parts for its writer.
fn read_parts(compare: &mut Compare, block: &[u8]) -> Option<OwnParts> {
    let read = compare.read(block, [4096; 3])?;
    let run = |part: Part| {
        let end = part.start.saturating_add(part.length);
        block.get(part.start as usize..end as usize).unwrap_or_default().to_vec()
    };
    Some(OwnParts {
        head: read.block.head,
        names: run(read.block.names),
        metadata: run(read.block.metadata),
        objects: run(read.block.objects),
        timers: run(read.block.timers),
        param0: read.param0,
        param1: read.param1,
        param2: read.param2,
    })
}

/// Demand 2: "what was read writes back to the same bytes".
fn round_trip(compare: &mut Compare, parts: &OwnParts, block: &[u8]) {
    let (answer, bytes) = compare.write(&parts.lent(), block.len());
    if answer.number != 0 || bytes != block {
        compare.note("round trip: what was read does not write back".to_string(), vec![("block", block.to_vec())]);
    }
}

/// Demand 2: "what was written reads back to the same parts".
fn reads_back(compare: &mut Compare, parts: &OwnParts, block: &[u8]) {
    let same = read_parts(compare, block).is_some_and(|again| {
        let lists = again.param0 == parts.param0 && again.param1 == parts.param1 && again.param2 == parts.param2;
        let rows = again.names == parts.names && again.metadata == parts.metadata;
        lists && rows && again.objects == parts.objects && again.timers == parts.timers && again.head == parts.head
    });
    if !same {
        compare.note("round trip: what was written does not read back".to_string(), vec![("block", block.to_vec())]);
    }
}

fn spoil(random: &mut Random, parts: &mut OwnParts) {
    match random.below(14) {
        0 => parts.head.version = random.pick(&[0, 21, 30, 255]),
        1 => parts.head.version = 22 + random.below(8) as u8,
        2 => parts.head.timer_byte = random.pick(&[0, 1, 2, 2, 3, 255]),
        3 => parts.head.lighting = random.pick(&[0, 65_534, 65_535, 0xf000]),
        4 => spoil_list_length(random, parts),
        5 => spoil_node(random, parts),
        6 => take_from_section(random, parts),
        7 | 8 => spoil_section(random, parts),
        9 => double_section(random, parts),
        10 => spoil_position(random, parts),
        11 => parts.head.list_form = random.pick(&[0, 1, 2, 255]),
        12 => parts.metadata.clear(),
        _ => add_timers(random, parts),
    }
}

fn spoil_list_length(random: &mut Random, parts: &mut OwnParts) {
    let length = random.pick(&[0, 1, 4095, 4097]);
    match random.below(3) {
        0 => parts.param0.resize(length, 0),
        1 => parts.param1.resize(length, 0),
        _ => parts.param2.resize(length, 0),
    }
}

/// Another param0, often one that version 23 cannot hold.
fn spoil_node(random: &mut Random, parts: &mut OwnParts) {
    if parts.param0.is_empty() {
        return;
    }
    let index = if random.one_in(2) { random.below(parts.param0.len()) } else { parts.param0.len() - 1 };
    parts.param0[index] = match random.below(3) {
        0 => random.pick(&[127, 128, 255, 256, 65_535]),
        1 => random.below(256) as u16,
        _ => random.draw() as u16,
    };
}

/// Some bytes fewer, or more, at a section's end.
fn take_from_section(random: &mut Random, parts: &mut OwnParts) {
    let which = random.below(4);
    let section = &mut parts.sections()[which];
    if random.one_in(2) {
        let left = section.len().saturating_sub(1 + random.below(14));
        section.truncate(left);
    } else {
        let more = random.below(14);
        section.extend(random.bytes(more));
    }
}

fn spoil_section(random: &mut Random, parts: &mut OwnParts) {
    let which = random.below(4);
    let section = &mut parts.sections()[which];
    if !section.is_empty() {
        let place = random.below(section.len().min(60));
        section[place] = match random.below(3) {
            0 => section[place] ^ 1 << random.below(8),
            1 => random.draw() as u8,
            _ => random.pick(&[0, 1, 2, 16, 255]),
        };
    }
}

/// Every row twice: ids and positions are then doubled.
fn double_section(random: &mut Random, parts: &mut OwnParts) {
    let which = random.below(4);
    let section = &mut parts.sections()[which];
    let again = section.clone();
    section.extend(again);
}

/// The first row's position, at or above the greatest.
fn spoil_position(random: &mut Random, parts: &mut OwnParts) {
    let which = random.pick(&[1, 3]);
    let section = &mut parts.sections()[which];
    if section.len() >= 2 {
        section[..2].copy_from_slice(&random.pick(&[4095_u16, 4096, 65_535]).to_be_bytes());
    }
}

fn add_timers(random: &mut Random, parts: &mut OwnParts) {
    for _ in 0..1 + random.below(3) {
        parts.timers.extend((random.below(4200) as u16).to_be_bytes());
        parts.timers.extend(random.bytes(8));
    }
}

/// 65,534 to 65,537 rows in one section, with rising ids and positions or all alike.
pub fn many_rows(compare: &mut Compare) {
    let random = &mut compare.random;
    let version = random.pick(&[22, 22, 23, 24, 25, 28, 29]);
    let made = blocks::block_of(random, version);
    let which = random.below(4);
    let rows = rows_for(random, version, which);
    // Ids that the rows map, and one that some of them do not.
    let param0 = vec![random.pick(&[0, 1, 7, 127, 65_534, 65_535]); 4096];
    let Some(mut parts) = read_parts(compare, &made.bytes) else {
        return;
    };
    *parts.sections()[which] = rows;
    match which {
        0 => parts.param0 = param0,
        // Rows have a counted list.
        1 => parts.head.list_form = LIST_COUNTED,
        _ => {}
    }
    let room = parts.length();
    let (answer, bytes) = compare.write(&parts.lent(), room);
    if answer.number == 0 {
        reads_back(compare, &parts, &bytes);
    }
}

fn rows_for(random: &mut Random, version: u8, which: usize) -> Vec<u8> {
    let count = random.pick(&[65_534, 65_535, 65_535, 65_536, 65_536, 65_537]);
    let all_alike = random.one_in(3);
    let mut rows = Vec::new();
    for row in 0..count {
        let number = if all_alike { 7 } else { row as u16 };
        rows.extend(number.to_be_bytes());
        match which {
            0 => rows.extend([0, 0]),
            1 if version == 22 => rows.extend([0, 1, 0, 0]),
            1 => rows.extend(b"\0\0\0\0EndInventory\n"),
            // What would be an id is an object's type and the first byte of its x.
            2 => rows.extend([7, 7, 7, 7, 7, 7, 7, 7, 7, 7, 7, 0, 0]),
            _ => rows.extend([0; 8]),
        }
    }
    rows
}
