//! Good blocks of all versions.

use super::builder::{Builder, Field, Kind};
use super::{names, rows};
use crate::random::Random;
use anowhetele::raw::{Head, LIST_COUNTED, LIST_ZERO};
use std::collections::HashSet;
use std::ops::Range;

/// A block with the places of its fields; those of the params are told by `param0_at` and the width alone.
pub struct MadeBlock {
    pub bytes: Vec<u8>,
    pub head: Head,
    pub fields: Vec<Field>,
    pub param0_at: usize,
    pub width: usize,
    /// Those of its name rows.
    pub names: Vec<Vec<u8>>,
}

impl MadeBlock {
    /// The bytes of all three lists.
    pub fn params(&self) -> Range<usize> {
        self.param0_at..self.param0_at + 4096 * (self.width + 2)
    }
}

pub fn block(random: &mut Random) -> MadeBlock {
    let version = 22 + random.below(8) as u8;
    block_of(random, version)
}

pub fn block_of(random: &mut Random, version: u8) -> MadeBlock {
    let metadata_count = rows::row_count(random);
    let head = head(random, version, metadata_count);
    let (mapping, used) = mapping(random, version);
    let (name_count, name_rows) = (mapping.len(), rows::name_rows(&mapping));
    let mut out = Builder::default();
    out.u8(Kind::Version, version);
    out.u8(Kind::Free, head.flags);
    if version >= 27 {
        out.u16(Kind::Free, head.lighting);
    }
    if version >= 29 {
        put_saved(&mut out, head.timestamp, name_count, &name_rows);
    }
    let width = if version <= 23 { 1 } else { 2 };
    out.u8(Kind::Fixed, width as u8);
    out.u8(Kind::Fixed, 2);
    let param0_at = out.bytes.len();
    out.bytes.extend(nodes(random, version, &used));
    put_metadata(&mut out, random, &head, metadata_count);
    out.u8(Kind::Fixed, 0);
    let count = rows::row_count(random);
    put_rows(&mut out, count, &rows::object_rows(random, count));
    if version < 29 {
        put_saved(&mut out, head.timestamp, name_count, &name_rows);
    }
    if version >= 25 {
        out.u8(Kind::Fixed, 10);
        let count = rows::row_count(random);
        put_rows(&mut out, count, &rows::timer_rows(random, count));
    }
    let names = mapping.into_iter().map(|(_, name)| name).collect();
    MadeBlock { bytes: out.bytes, head, fields: out.fields, param0_at, width, names }
}

/// The head of a block with so many metadata rows.
fn head(random: &mut Random, version: u8, metadata_count: usize) -> Head {
    let lighting = random.draw() as u16;
    let timer_byte = random.below(2) as u8;
    let list_form = random.pick(&[LIST_COUNTED, LIST_ZERO]);
    Head {
        version,
        flags: random.draw() as u8,
        lighting: if version >= 27 { lighting } else { 65_535 },
        timestamp: second(random),
        timer_byte: if version == 24 { timer_byte } else { 0 },
        list_form: if version >= 23 && metadata_count == 0 { list_form } else { LIST_COUNTED },
    }
}

/// Seconds, many of them around the ends of the spans that are asked for.
pub fn second(random: &mut Random) -> u32 {
    match random.below(4) {
        0 => random.draw() as u32,
        1 => random.pick(&[0, 1, 9, 10, 0x7fff_ffff, 0x8000_0000, 0xffff_fffe, 0xffff_ffff]),
        _ => random.pick(&[999_997, 999_998, 999_999, 1_000_000, 1_000_001]),
    }
}

/// Name rows in any order, and the ids that nodes may have: those of the version, mapped.
fn mapping(random: &mut Random, version: u8) -> (Vec<(u16, Vec<u8>)>, Vec<u16>) {
    let mut mapping = if random.one_in(500) { many_names(random, version) } else { few_names(random, version) };
    let used = mapping.iter().map(|(id, _)| *id).collect();
    let mut taken: HashSet<u16> = mapping.iter().map(|(id, _)| *id).collect();
    for _ in 0..random.pick(&[0, 0, 0, 1, 3]) {
        let id = random.draw() as u16;
        if taken.insert(id) {
            mapping.push((id, names::name(random)));
        }
    }
    if random.one_in(3) {
        let name = mapping[random.below(mapping.len())].1.clone();
        let other = random.below(mapping.len());
        mapping[other].1 = name;
    }
    random.shuffle(&mut mapping);
    (mapping, used)
}

fn few_names(random: &mut Random, version: u8) -> Vec<(u16, Vec<u8>)> {
    let count = match random.below(100) {
        0..=89 => 1 + random.below(8),
        90..=98 => 20 + random.below(60),
        _ => 200 + random.below(800),
    };
    let ids = few_ids(random, version, count as u16);
    ids.into_iter().map(|id| (id, names::name(random))).collect()
}

/// From 0 on with no gap, as servers number them, or up to so many of any.
fn few_ids(random: &mut Random, version: u8, count: u16) -> Vec<u16> {
    if random.one_in(2) && (version >= 24 || count <= 128) {
        return (0..count).collect();
    }
    let ids: HashSet<u16> = (0..count).map(|_| node_id(random, version)).collect();
    let mut ids: Vec<u16> = ids.into_iter().collect();
    // A set has an order of its own in each run; the case's must be the same in all.
    ids.sort_unstable();
    ids
}

/// More names than a block has nodes, all different, or up to version 23 as many as there are ids.
fn many_names(random: &mut Random, version: u8) -> Vec<(u16, Vec<u8>)> {
    let ids: Vec<u16> =
        if version >= 24 { (0..=65_535).step_by(15).collect() } else { (0..128).chain(2048..4096).collect() };
    let numbered = |id: u16| {
        let mut name = names::name(random);
        name.truncate(300);
        name.extend(id.to_string().bytes());
        (id, name)
    };
    ids.into_iter().map(numbered).collect()
}

/// An id that a node of the version can have: up to 23, 0..127 or 2048..4095.
fn node_id(random: &mut Random, version: u8) -> u16 {
    if version >= 24 {
        return match random.below(3) {
            0 => random.pick(&[0, 1, 127, 128, 255, 256, 4095, 4096, 32_767, 32_768, 65_535]),
            1 => random.below(40) as u16,
            _ => random.draw() as u16,
        };
    }
    match random.below(4) {
        0 => random.pick(&[0, 1, 126, 127, 2048, 2049, 4094, 4095]),
        1 => 2048 + random.below(2048) as u16,
        _ => random.below(128) as u16,
    }
}

/// The three lists: param0 in the version's width, param1, param2.
fn nodes(random: &mut Random, version: u8, used: &[u16]) -> Vec<u8> {
    let ids = node_ids(random, used);
    let mut param2 = random.bytes(4096);
    let mut lists = Vec::with_capacity(4 * 4096);
    for (index, &id) in ids.iter().enumerate() {
        if version >= 24 {
            lists.extend(id.to_be_bytes());
        } else if id < 128 {
            lists.push(id as u8);
        } else {
            lists.push((id / 16) as u8);
            param2[index] = (id % 16 * 16) as u8 + param2[index] % 16;
        }
    }
    lists.extend(random.bytes(4096));
    lists.extend(param2);
    lists
}

/// An id for each node: all alike, all mixed, in turn, in runs, or one here and there.
fn node_ids(random: &mut Random, used: &[u16]) -> Vec<u16> {
    let few = random.pick(used);
    match random.below(6) {
        0 => vec![few; 4096],
        1 => (0..4096).map(|_| random.pick(used)).collect(),
        2 => (0..4096).map(|index| used[index % used.len()]).collect(),
        3 => (0..4096).map(|index| used[index / 16 % used.len()]).collect(),
        4 => {
            let run = 1 + random.below(300);
            (0..4096).map(|index| used[index / run % used.len()]).collect()
        }
        _ => {
            let mut ids = vec![few; 4096];
            for _ in 0..1 + random.below(20) {
                let place = if random.one_in(2) { random.pick(&[0, 1, 15, 16, 255, 4095]) } else { random.below(4096) };
                ids[place] = random.pick(used);
            }
            ids
        }
    }
}

fn put_saved(out: &mut Builder, timestamp: u32, count: usize, rows: &Builder) {
    out.u32(Kind::Free, timestamp);
    out.u8(Kind::Fixed, 0);
    put_rows(out, count, rows);
}

/// The metadata, and what stands behind it in 23 and 24.
fn put_metadata(out: &mut Builder, random: &mut Random, head: &Head, count: usize) {
    if head.list_form == LIST_ZERO {
        out.u8(Kind::ListVersion, 0);
    } else {
        match head.version {
            22 => out.u16(Kind::ListVersion, 1),
            23..=27 => out.u8(Kind::ListVersion, 1),
            _ => out.u8(Kind::ListVersion, 2),
        }
        put_rows(out, count, &rows::metadata_rows(random, head.version, count));
    }
    if head.version == 23 || head.version == 24 {
        out.u8(Kind::Fixed, head.timer_byte);
    }
    if head.timer_byte == 1 {
        let count = rows::row_count(random);
        put_rows(out, count, &rows::timer_rows(random, count));
    }
}

fn put_rows(out: &mut Builder, count: usize, rows: &Builder) {
    out.u16(Kind::Count, count as u16);
    out.append(rows);
}
