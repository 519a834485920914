//! What a tally and a rate sheet have in common: a head, its last field the number of rows, and rows of so many fields.

use super::builder::{Builder, Field};
use super::damage;
use crate::random::Random;
use std::ops::Range;

/// How many fields the head has: mark, version, number of rows.
pub const HEAD: usize = 3;

/// The fields of each row.
pub fn rows(list: &Builder, row: usize) -> Vec<&[Field]> {
    list.fields[HEAD..].chunks(row).collect()
}

/// The bytes with one damage; each row has so many fields.
pub fn damaged(random: &mut Random, list: &Builder, row: usize) -> Vec<u8> {
    let mut bytes = list.bytes.clone();
    let field = list.fields[random.below(list.fields.len())];
    match random.below(7) {
        0 => bytes.truncate(field.at + random.below(field.length + 1)),
        1 => bytes.extend(std::iter::repeat_n(0, 1 + random.below(20))),
        2 | 3 => {
            let value = damage::hostile(random, damage::value_of(&bytes, field));
            damage::put(&mut bytes, field, value);
        }
        4 => {
            let place = random.below(bytes.len());
            bytes[place] ^= 1 << random.below(8);
        }
        5 => exchange_rows(random, &places(list, row), &mut bytes),
        _ => double_row(random, list, &places(list, row), &mut bytes),
    }
    bytes
}

fn places(list: &Builder, row: usize) -> Vec<Range<usize>> {
    let end = |field: Field| field.at + field.length;
    rows(list, row).into_iter().map(|fields| fields[0].at..end(fields[row - 1])).collect()
}

/// Exchanges two rows that stand one behind the other, so that they fall.
fn exchange_rows(random: &mut Random, rows: &[Range<usize>], bytes: &mut [u8]) {
    if rows.len() >= 2 {
        let first = random.below(rows.len() - 1);
        bytes[rows[first].start..rows[first + 1].end].rotate_left(rows[first].len());
    }
}

/// A row twice, counted twice: the second does not rise.
fn double_row(random: &mut Random, list: &Builder, rows: &[Range<usize>], bytes: &mut Vec<u8>) {
    if !rows.is_empty() {
        let row = rows[random.below(rows.len())].clone();
        let again = bytes[row.clone()].to_vec();
        bytes.splice(row.start..row.start, again);
        damage::put(bytes, list.fields[HEAD - 1], rows.len() as u64 + 1);
    }
}
