//! The rows of a section from the front, and damaged parts.

use crate::compare::Compare;
use crate::make::builder::Builder;
use crate::make::{damage, rows};
use crate::random::Random;

#[derive(Clone, Copy)]
enum List {
    Names,
    Metadata(u8),
    Objects,
    Timers,
}

pub fn rows(compare: &mut Compare) {
    let version = 22 + compare.random.below(8) as u8;
    let list = compare.random.pick(&[
        List::Names,
        List::Metadata(version),
        List::Metadata(version),
        List::Objects,
        List::Timers,
    ]);
    let section = section(&mut compare.random, list);
    walk(compare, list, &section.bytes);
    for _ in 0..6 {
        let part = damaged(&mut compare.random, &section);
        walk(compare, list, &part);
    }
    // Every place at which the first rows can be cut.
    for length in 0..section.bytes.len().min(70) {
        ask(compare, list, &section.bytes[..length]);
    }
    other_version(compare, &section.bytes);
}

fn section(random: &mut Random, list: List) -> Builder {
    let count = random.below(4);
    match list {
        List::Names => rows::any_name_rows(random, count),
        List::Metadata(version) => rows::metadata_rows(random, version, count),
        List::Objects => rows::object_rows(random, count),
        List::Timers => rows::timer_rows(random, count),
    }
}

/// The length of the front row; 0 after a refusal.
fn ask(compare: &mut Compare, list: List, part: &[u8]) -> usize {
    match list {
        List::Names => compare.row_name(part),
        List::Metadata(version) => compare.row_metadata(version, part),
        List::Objects => compare.row_object(part),
        List::Timers => compare.row_timer(part),
    }
}

/// Row after row, each part being what remains, up to the refusal at the end.
fn walk(compare: &mut Compare, list: List, section: &[u8]) {
    let mut part = section;
    loop {
        let length = ask(compare, list, part).min(part.len());
        if length == 0 {
            return;
        }
        part = &part[length..];
    }
}

fn damaged(random: &mut Random, section: &Builder) -> Vec<u8> {
    let mut bytes = section.bytes.clone();
    if section.fields.is_empty() {
        let length = random.below(40);
        return random.bytes(length);
    }
    let field = section.fields[random.below(section.fields.len())];
    match random.below(4) {
        0 => bytes.truncate(field.at + random.below(field.length + 1)),
        1 => {
            let place = random.below(bytes.len());
            bytes[place] ^= 1 << random.below(8);
        }
        2 => damage::put(&mut bytes, field, random.pick(&[4095, 4096, 65_535, 2, 255])),
        _ => {
            let value = damage::hostile(random, damage::value_of(&bytes, field));
            damage::put(&mut bytes, field, value);
        }
    }
    if random.one_in(4) {
        bytes.truncate(field.at + field.length);
    }
    bytes
}

/// The same bytes as metadata of every version and of some that are none, also with nothing there.
fn other_version(compare: &mut Compare, section: &[u8]) {
    let version = compare.random.pick(&[0, 21, 22, 23, 27, 28, 29, 30, 255]);
    compare.row_metadata(version, section);
    compare.row_metadata(version, &[]);
}
