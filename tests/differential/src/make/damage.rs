//! Damage to a block, aimed at the places of its fields.

use super::blocks::MadeBlock;
use super::builder::{Field, Kind};
use crate::random::Random;

/// Values that counts, lengths and other numbers are spoiled with.
const HOSTILE: [u64; 18] =
    [0, 1, 2, 9, 10, 11, 127, 128, 255, 256, 4095, 4096, 32_768, 65_535, 65_536, 0x7fff_ffff, 0x8000_0000, 0xffff_ffff];

/// A copy of the block's bytes with one damage, or with two.
pub fn damaged(random: &mut Random, made: &MadeBlock) -> Vec<u8> {
    let mut bytes = made.bytes.clone();
    for _ in 0..random.pick(&[1, 1, 1, 2]) {
        while !damage_once(random, made, &mut bytes) {}
    }
    bytes
}

/// False where the block has no field of the sort that was drawn.
fn damage_once(random: &mut Random, made: &MadeBlock, bytes: &mut Vec<u8>) -> bool {
    match random.below(26) {
        0 => cut_at_field(random, made, bytes),
        1 => cut_at_param(random, made, bytes),
        2 => cut_anywhere(random, bytes),
        3 | 4 => append(random, bytes),
        5 => spoil_bit(random, made, bytes),
        6 => spoil_anywhere(random, bytes),
        7..=9 => spoil_count(random, made, bytes),
        10..=12 => double(random, made, bytes),
        13 | 14 => move_out(random, made, bytes),
        15 => spoil_end_line(random, made, bytes),
        16..=18 => unmap_node(random, made, bytes),
        19 => unmap_row(random, made, bytes),
        20 | 21 => spoil_fixed(random, made, bytes),
        22 => spoil_version(random, bytes),
        23 | 24 => spoil_list_version(random, made, bytes),
        _ => insert_or_remove(random, made, bytes),
    }
}

fn field_where(random: &mut Random, made: &MadeBlock, wanted: impl Fn(Kind) -> bool) -> Option<Field> {
    let fitting: Vec<&Field> = made.fields.iter().filter(|field| wanted(field.kind)).collect();
    if fitting.is_empty() {
        return None;
    }
    Some(*fitting[random.below(fitting.len())])
}

/// Writes the low bytes of a value over a field, as far as the bytes still go.
pub fn put(bytes: &mut [u8], field: Field, value: u64) {
    for (place, byte) in value.to_be_bytes()[8 - field.length.min(8)..].iter().enumerate() {
        if let Some(old) = bytes.get_mut(field.at + place) {
            *old = *byte;
        }
    }
}

/// The value of a field, as far as the bytes still go.
pub fn value_of(bytes: &[u8], field: Field) -> u64 {
    let places = field.at..field.at + field.length.min(8);
    places.fold(0, |value, place| value << 8 | u64::from(bytes.get(place).copied().unwrap_or(0)))
}

/// A hostile value, or one more or less than it was.
pub fn hostile(random: &mut Random, value: u64) -> u64 {
    match random.below(3) {
        0 => value.wrapping_add(1),
        1 => value.wrapping_sub(1),
        _ => random.pick(&HOSTILE),
    }
}

fn cut_at_field(random: &mut Random, made: &MadeBlock, bytes: &mut Vec<u8>) -> bool {
    let field = made.fields[random.below(made.fields.len())];
    bytes.truncate(field.at + random.below(field.length + 1));
    true
}

/// Sometimes the bytes end right behind a field that was spoiled, or soon: the fault comes first all the same.
fn cut_behind(random: &mut Random, field: Field, bytes: &mut Vec<u8>) {
    if random.one_in(4) {
        bytes.truncate(field.at + field.length + random.below(9));
    }
}

fn cut_at_param(random: &mut Random, made: &MadeBlock, bytes: &mut Vec<u8>) -> bool {
    let params = made.params();
    bytes.truncate(params.start + random.below(params.len() + 1));
    true
}

fn cut_anywhere(random: &mut Random, bytes: &mut Vec<u8>) -> bool {
    bytes.truncate(random.below(bytes.len() + 1));
    true
}

fn append(random: &mut Random, bytes: &mut Vec<u8>) -> bool {
    let count = random.pick(&[1, 1, 2, 10, 100]);
    let more = if random.one_in(2) { vec![0; count] } else { random.bytes(count) };
    bytes.extend(more);
    true
}

fn spoil_bit(random: &mut Random, made: &MadeBlock, bytes: &mut [u8]) -> bool {
    let field = made.fields[random.below(made.fields.len())];
    let place = field.at + random.below(field.length.max(1));
    if let Some(byte) = bytes.get_mut(place) {
        *byte ^= 1 << random.below(8);
    }
    true
}

fn spoil_anywhere(random: &mut Random, bytes: &mut [u8]) -> bool {
    if !bytes.is_empty() {
        let place = random.below(bytes.len());
        bytes[place] = random.draw() as u8;
    }
    true
}

fn spoil_count(random: &mut Random, made: &MadeBlock, bytes: &mut [u8]) -> bool {
    let Some(field) = field_where(random, made, |kind| matches!(kind, Kind::Count | Kind::Length)) else {
        return false;
    };
    let value = hostile(random, value_of(bytes, field));
    put(bytes, field, value);
    true
}

/// Gives a row the id or the position of another row of its list.
fn double(random: &mut Random, made: &MadeBlock, bytes: &mut Vec<u8>) -> bool {
    let kind = random.pick(&[Kind::Id, Kind::MetadataPosition, Kind::TimerPosition]);
    let (one, other) =
        (field_where(random, made, |other| other == kind), field_where(random, made, |other| other == kind));
    let (Some(one), Some(other)) = (one, other) else {
        return false;
    };
    if one.at == other.at {
        return false;
    }
    let value = value_of(bytes, one);
    put(bytes, other, value);
    cut_behind(random, other, bytes);
    true
}

/// A position at or behind the end of the block.
fn move_out(random: &mut Random, made: &MadeBlock, bytes: &mut Vec<u8>) -> bool {
    let wanted = |kind| matches!(kind, Kind::MetadataPosition | Kind::TimerPosition);
    let Some(field) = field_where(random, made, wanted) else {
        return false;
    };
    put(bytes, field, random.pick(&[4095, 4096, 4096, 4097, 8191, 65_535]));
    cut_behind(random, field, bytes);
    true
}

/// Spoils the end line of an inventory; the inventory then runs on behind it.
fn spoil_end_line(random: &mut Random, made: &MadeBlock, bytes: &mut [u8]) -> bool {
    let Some(field) = field_where(random, made, |kind| kind == Kind::Inventory) else {
        return false;
    };
    let place = field.at + field.length - 1 - random.below(13);
    if let Some(byte) = bytes.get_mut(place) {
        *byte = random.pick(b"\r\n x\0E");
    }
    true
}

/// Gives a node another id, or up to version 23 perhaps another param2; sometimes with a byte too many behind it all.
fn unmap_node(random: &mut Random, made: &MadeBlock, bytes: &mut Vec<u8>) -> bool {
    let index = if random.one_in(4) { random.pick(&[0, 1, 4095]) } else { random.below(4096) };
    let in_param2 = made.width == 1 && random.one_in(3);
    let at = if in_param2 { made.params().end - 4096 + index } else { made.param0_at + made.width * index };
    let length = if in_param2 { 1 } else { made.width };
    put(bytes, Field { kind: Kind::Free, at, length }, random.draw());
    if random.one_in(4) {
        bytes.push(random.draw() as u8);
    }
    true
}

/// Gives a name row another id, so that nodes may lose their name.
fn unmap_row(random: &mut Random, made: &MadeBlock, bytes: &mut [u8]) -> bool {
    let Some(field) = field_where(random, made, |kind| kind == Kind::Id) else {
        return false;
    };
    put(bytes, field, random.draw());
    true
}

fn spoil_fixed(random: &mut Random, made: &MadeBlock, bytes: &mut Vec<u8>) -> bool {
    let Some(field) = field_where(random, made, |kind| kind == Kind::Fixed) else {
        return false;
    };
    put(bytes, field, random.pick(&[0, 1, 2, 3, 9, 10, 11, 255, 256, 257]));
    cut_behind(random, field, bytes);
    true
}

/// Another list version of the metadata, sometimes with a count more or fewer behind it: a single 0 has none.
fn spoil_list_version(random: &mut Random, made: &MadeBlock, bytes: &mut Vec<u8>) -> bool {
    let Some(field) = field_where(random, made, |kind| kind == Kind::ListVersion) else {
        return false;
    };
    put(bytes, field, random.pick(&[0, 0, 0, 1, 2, 3, 255, 256, 257]));
    let behind = (field.at + field.length).min(bytes.len());
    match random.below(3) {
        0 => drop(bytes.splice(behind..behind, [0, 0])),
        1 => drop(bytes.drain(behind..(behind + 2).min(bytes.len()))),
        _ => cut_behind(random, field, bytes),
    }
    true
}

fn spoil_version(random: &mut Random, bytes: &mut [u8]) -> bool {
    let near = 22 + random.below(8) as u8;
    if let Some(version) = bytes.first_mut() {
        *version = random.pick(&[0, 21, 30, 255, near, near]);
    }
    true
}

/// Some bytes more or fewer at the start of a field.
fn insert_or_remove(random: &mut Random, made: &MadeBlock, bytes: &mut Vec<u8>) -> bool {
    let at = made.fields[random.below(made.fields.len())].at.min(bytes.len());
    let count = 1 + random.below(10);
    if random.one_in(2) {
        let more = random.bytes(count);
        bytes.splice(at..at, more);
    } else {
        bytes.drain(at..(at + count).min(bytes.len()));
    }
    true
}
