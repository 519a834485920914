//! Sheets, good and damaged.

use super::blocks::{self, MadeBlock};
use super::builder::{Field, Kind};
use super::{damage, lots};
use crate::random::Random;

pub struct MadeSheet {
    pub bytes: Vec<u8>,
    /// Where the records start, and where the last one ends.
    pub places: Vec<usize>,
    /// Coordinates and a second of one of its blocks, to aim lots and spans at, and the names of all to aim rates at.
    pub near: [i32; 3],
    pub second: u32,
    pub names: Vec<Vec<u8>>,
}

/// A sheet of up to twelve blocks, often neighbours, with keys that mostly rise.
pub fn sheet(random: &mut Random) -> MadeSheet {
    let blocks: Vec<MadeBlock> =
        (0..random.pick(&[0, 1, 1, 2, 2, 3, 3, 4, 6, 12])).map(|_| blocks::block(random)).collect();
    let near = lots::block_coordinates(random);
    let mut keys: Vec<i64> = blocks.iter().map(|_| lots::key_of(neighbour(random, near))).collect();
    keys.sort_unstable();
    keys.dedup();
    let second = blocks.first().map_or(0, |block| block.head.timestamp);
    let names = blocks.iter().flat_map(|block| block.names.clone()).collect();
    let records: Vec<(i64, Vec<u8>)> = keys.into_iter().zip(blocks).map(|(key, made)| (key, made.bytes)).collect();
    let (bytes, places) = bytes_of(&records);
    MadeSheet { bytes, places, near, second, names }
}

fn neighbour(random: &mut Random, near: [i32; 3]) -> [i32; 3] {
    near.map(|coordinate| (coordinate + random.between(-2, 2) as i32).clamp(-2048, 2047))
}

fn bytes_of(records: &[(i64, Vec<u8>)]) -> (Vec<u8>, Vec<usize>) {
    let mut bytes = b"WSH\0\x01".to_vec();
    bytes.extend((records.len() as u32).to_be_bytes());
    let mut places = vec![bytes.len()];
    for (key, block) in records {
        bytes.extend(key.to_be_bytes());
        bytes.extend((block.len() as u32).to_be_bytes());
        bytes.extend(block);
        places.push(bytes.len());
    }
    (bytes, places)
}

/// A sheet with a damaged block in it, all else good.
pub fn with_damaged_block(random: &mut Random) -> MadeSheet {
    let count = 1 + random.below(3);
    let spoiled = random.below(count);
    let near = lots::block_coordinates(random);
    let first = lots::key_of(near).min(34_351_347_000);
    let (mut records, mut names) = (Vec::new(), Vec::new());
    for record in 0..count {
        let made = blocks::block(random);
        names.extend(made.names.clone());
        let bytes = if record == spoiled { damage::damaged(random, &made) } else { made.bytes };
        records.push((first + record as i64, bytes));
    }
    let (bytes, places) = bytes_of(&records);
    MadeSheet { bytes, places, near, second: 1_000_000, names }
}

/// A copy of the sheet's bytes with its own framing, keys or head spoiled, once or twice.
pub fn damaged(random: &mut Random, sheet: &MadeSheet) -> Vec<u8> {
    let mut bytes = sheet.bytes.clone();
    for _ in 0..random.pick(&[1, 1, 2]) {
        damage_once(random, sheet, &mut bytes);
    }
    bytes
}

fn damage_once(random: &mut Random, sheet: &MadeSheet, bytes: &mut Vec<u8>) {
    let record = sheet.places[random.below(sheet.places.len())];
    match random.below(10) {
        0 => spoil(random, bytes, 0, 5),
        1 => spoil(random, bytes, 5, 4),
        2 => bytes.truncate(random.pick(&[0, 2, 3, 5, 8, 9]).min(bytes.len())),
        3 => bytes.truncate(record + random.below(13)),
        4 => bytes.truncate(random.below(bytes.len() + 1)),
        5 => bytes.extend(std::iter::repeat_n(0, random.pick(&[1, 11, 12, 13]))),
        6 => spoil(random, bytes, record + 8, 4),
        7 => put_key(random, bytes, record),
        8 => double_key(random, sheet, bytes),
        _ => spoil(random, bytes, record, 8),
    }
}

/// Spoils a number, or one bit of it.
fn spoil(random: &mut Random, bytes: &mut [u8], at: usize, length: usize) {
    let field = Field { kind: Kind::Free, at, length };
    if random.one_in(2) {
        let value = damage::hostile(random, damage::value_of(bytes, field));
        damage::put(bytes, field, value);
    } else if let Some(byte) = bytes.get_mut(at + random.below(length)) {
        *byte ^= 1 << random.below(8);
    }
}

/// Any key in the place of a record's.
fn put_key(random: &mut Random, bytes: &mut [u8], record: usize) {
    let key = lots::any_key(random);
    if let Some(place) = bytes.get_mut(record..record + 8) {
        place.copy_from_slice(&key.to_be_bytes());
    }
}

/// The key of the record before, or one beside it.
fn double_key(random: &mut Random, sheet: &MadeSheet, bytes: &mut [u8]) {
    if sheet.places.len() < 3 {
        return;
    }
    let record = 1 + random.below(sheet.places.len() - 2);
    let (before, now) = (sheet.places[record - 1], sheet.places[record]);
    if bytes.len() < now + 8 {
        return;
    }
    let key = i64::from_be_bytes(bytes[before..before + 8].try_into().unwrap());
    let key = key.wrapping_add(random.pick(&[0, 0, 1, -1]));
    bytes[now..now + 8].copy_from_slice(&key.to_be_bytes());
}
