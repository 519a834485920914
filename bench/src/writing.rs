//! Writing the blocks and sheets that the programs are raced on.

use crate::random::Random;
use crate::reading::NODES;
use anowhetele::LIST_ZERO;

/// A block before it is written.
pub struct Plain {
    pub version: u8,
    pub timestamp: u32,
    pub names: Vec<(u16, Vec<u8>)>,
    pub ids: Vec<u16>,
    /// Metadata rows, objects and timers of each block.
    pub rows: usize,
    /// The form of a metadata list of no rows; with rows, and in version 22, the list is counted.
    pub list_form: u8,
}

impl Plain {
    /// A version 29 block as servers write it, with no metadata, objects or timers.
    pub fn without_rows(timestamp: u32, names: Vec<(u16, Vec<u8>)>, ids: Vec<u16>) -> Plain {
        Plain {
            version: 29,
            timestamp,
            names,
            ids,
            rows: 0,
            list_form: LIST_ZERO,
        }
    }
}

fn put16(out: &mut Vec<u8>, number: usize) {
    out.extend_from_slice(&(number as u16).to_be_bytes());
}

pub fn put32(out: &mut Vec<u8>, number: usize) {
    out.extend_from_slice(&(number as u32).to_be_bytes());
}

pub fn write_block(random: &mut Random, plain: &Plain) -> Vec<u8> {
    let version = plain.version;
    let mut out = vec![version, random.below(32) as u8];
    if version >= 27 {
        put16(&mut out, random.below(65536));
    }
    if version >= 29 {
        put_names(&mut out, plain);
    }
    put_nodes(random, &mut out, plain);
    put_metadata(random, &mut out, plain);
    put_objects(random, &mut out, plain.rows);
    if version < 29 {
        put_names(&mut out, plain);
    }
    if version >= 25 {
        out.push(10);
        put_timers(random, &mut out, plain.rows);
    }
    out
}

fn put_names(out: &mut Vec<u8>, plain: &Plain) {
    put32(out, plain.timestamp as usize);
    out.push(0);
    put16(out, plain.names.len());
    for (id, name) in &plain.names {
        put16(out, *id as usize);
        put16(out, name.len());
        out.extend_from_slice(name);
    }
}

fn put_nodes(random: &mut Random, out: &mut Vec<u8>, plain: &Plain) {
    let wide = plain.version >= 24;
    out.extend_from_slice(if wide { &[2, 2] } else { &[1, 2] });
    for id in &plain.ids {
        match (wide, *id < 128) {
            (true, _) => put16(out, *id as usize),
            (false, true) => out.push(*id as u8),
            (false, false) => out.push((*id / 16) as u8),
        }
    }
    out.extend((0..NODES).map(|_| random.below(16) as u8));
    for id in &plain.ids {
        let high = if wide || *id < 128 { 0 } else { *id % 16 * 16 };
        out.push(high as u8 + random.below(4) as u8);
    }
}

fn put_metadata(random: &mut Random, out: &mut Vec<u8>, plain: &Plain) {
    let version = plain.version;
    if version >= 23 && plain.rows == 0 && plain.list_form == LIST_ZERO {
        out.push(0);
    } else {
        put_counted_metadata(random, out, plain);
    }
    if version == 23 {
        out.push(0);
    }
    if version == 24 {
        let timers = random.below(2);
        out.push(timers as u8);
        if timers == 1 {
            put_timers(random, out, plain.rows);
        }
    }
}

fn put_counted_metadata(random: &mut Random, out: &mut Vec<u8>, plain: &Plain) {
    let version = plain.version;
    match version {
        22 => put16(out, 1),
        _ => out.push(if version < 28 { 1 } else { 2 }),
    }
    put16(out, plain.rows);
    for row in 0..plain.rows {
        put16(out, 1000 * row + random.below(1000));
        if version == 22 {
            out.extend_from_slice(b"\x00\x0e\x00\x04text");
        } else {
            put_variables(random, out, version);
        }
    }
}

fn put_variables(random: &mut Random, out: &mut Vec<u8>, version: u8) {
    let count = random.below(3);
    put32(out, count);
    for _ in 0..count {
        out.extend_from_slice(b"\x00\x08infotext\x00\x00\x00\x05Chest");
        if version >= 28 {
            out.push(random.below(2) as u8);
        }
    }
    out.extend_from_slice(b"List main 1\nWidth 0\nEmpty\nEndInventoryList\nEndInventory\n");
}

fn put_objects(random: &mut Random, out: &mut Vec<u8>, count: usize) {
    out.push(0);
    put16(out, count);
    for _ in 0..count {
        out.push(7);
        (0..3).for_each(|_| put32(out, random.below(1 << 32)));
        out.extend_from_slice(b"\x00\x06sheep!");
    }
}

fn put_timers(random: &mut Random, out: &mut Vec<u8>, count: usize) {
    put16(out, count);
    for row in 0..count {
        put16(out, 1000 * row + random.below(1000));
        put32(out, 1000);
        put32(out, random.below(1000));
    }
}

pub fn start_sheet(count: usize) -> Vec<u8> {
    let mut sheet = b"WSH\x00\x01".to_vec();
    put32(&mut sheet, count);
    sheet
}

pub fn put_record(sheet: &mut Vec<u8>, key: i64, block: &[u8]) {
    sheet.extend_from_slice(&key.to_be_bytes());
    put32(sheet, block.len());
    sheet.extend_from_slice(block);
}

pub fn make_sheet<F>(random: &mut Random, count: usize, mut make: F) -> Vec<u8>
where
    F: FnMut(&mut Random, usize) -> Plain,
{
    let mut sheet = start_sheet(count);
    let mut key = -2000 * count as i64;
    for place in 0..count {
        let plain = make(random, place);
        put_record(&mut sheet, key, &write_block(random, &plain));
        key += 1 + random.below(4096) as i64;
    }
    sheet
}
