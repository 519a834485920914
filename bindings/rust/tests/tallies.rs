//! Tallies of blocks and sheets, adding, merging, cuts.
mod common;

use anowhetele::*;
use common::{air, sheet, PARAM0};

const AIR: &[u8] = b"TLY\x00\x01\x00\x00\x00\x01\x00\x03air\x00\x00\x00\x00\x00\x00\x10\x00";

#[test]
fn the_shortest_block() {
    let mut out = [0; 22];
    let tally = tally_block(-1, &air(999_998), Lot::WORLD, Span::ALL_TIME, &mut out).unwrap();
    assert_eq!(tally.bytes(), AIR);
    let rows: Vec<Row> = tally.into_iter().collect();
    assert_eq!(
        rows,
        [Row {
            name: b"air",
            count: 4096
        }]
    );
    assert_eq!(tally.rows().len(), 1);
    let refused = tally_block(-1, &air(999_998), Lot::WORLD, Span::ALL_TIME, &mut out[..21]).unwrap_err();
    assert_eq!(
        refused.to_string(),
        "refused 11: the result is longer than the output lent"
    );
}

#[test]
fn seconds_are_numbers() {
    let mut out = [0; 64];
    let early = Span::new(0, 1_000_000).unwrap();
    assert_eq!(
        tally_block(0, &air(999_998), Lot::WORLD, early, &mut out)
            .unwrap()
            .bytes(),
        AIR
    );
    assert_eq!(
        tally_block(0, &air(1_000_000), Lot::WORLD, early, &mut out).unwrap(),
        Tally::EMPTY
    );
}

#[test]
fn halves_make_the_whole() {
    let block = air(5);
    let records = [(-1, &block[..]), (0, &block[..])];
    let bytes = sheet(&records);
    let cut = |x0, x1| {
        let (mut out, mut spare) = (vec![0; 64], vec![0; 64]);
        let lot = Lot { x0, x1, ..Lot::WORLD };
        let length = tally_sheet(&bytes, lot, Span::ALL_TIME, &mut out, &mut spare)
            .unwrap()
            .bytes()
            .len();
        out.truncate(length);
        out
    };
    let (whole, left, right) = (cut(-20, 9), cut(-20, 3), cut(4, 9));
    let mut out = [0; 64];
    let merged = Tally::new(&right)
        .unwrap()
        .merge(Tally::new(&left).unwrap(), &mut out)
        .unwrap();
    assert_eq!(merged.bytes(), whole);
    assert_eq!(merged.rows().next().unwrap().count, 26 * 256);
}

#[test]
fn a_count_is_added_in_place() {
    let mut buffer = [0xee; 64];
    buffer[..9].copy_from_slice(Tally::EMPTY.bytes());
    let used = tally_add(&mut buffer, 9, b"default:stone", 3).unwrap();
    let used = tally_add(&mut buffer, used, b"air", u64::MAX).unwrap();
    assert_eq!(tally_add(&mut buffer, used, b"default:dirt", 0), Ok(used));
    let tally = Tally::new(&buffer[..used]).unwrap();
    let rows: Vec<(&[u8], u64)> = tally.rows().map(|row| (row.name, row.count)).collect();
    assert_eq!(rows, [(&b"air"[..], u64::MAX), (&b"default:stone"[..], 3)]);
    let refused = tally_add(&mut buffer, used, b"air", 1).unwrap_err();
    assert_eq!(
        refused.to_string(),
        "refused 14: a count or a total is above 2^64-1, or there are more than 2^32-1 rows"
    );
    assert_eq!(
        tally_add(&mut buffer, 65, b"air", 1).unwrap_err().refusal,
        Refusal::TallyMalformed
    );
}

#[test]
fn a_sheet_tells_the_record() {
    let (mut out, mut spare) = ([3; 64], [0; 64]);
    let good = air(5);
    let mut bad = air(5);
    bad[PARAM0 + 1] = 9;
    let bytes = sheet(&[(-1, &good), (5, &bad)]);
    let refused = tally_sheet(&bytes, Lot::WORLD, Span::ALL_TIME, &mut out, &mut spare).unwrap_err();
    assert_eq!(
        refused.to_string(),
        "refused 8 at offset 20 of record 1: a node has an id that is not mapped to a name"
    );
    assert_eq!(
        refused,
        Refused {
            refusal: Refusal::IdUnmapped,
            offset: Some(20),
            record: Some(1)
        }
    );
    assert_eq!(out, [3; 64]);
    let falling = sheet(&[(10, &good), (9, &good)]);
    let refused = tally_sheet(&falling, Lot::WORLD, Span::ALL_TIME, &mut out, &mut spare).unwrap_err();
    assert_eq!(
        refused.to_string(),
        "refused 15 at record 1: the mark, the version or the framing of the sheet is wrong, or its keys do not rise"
    );
}

#[test]
fn the_program_s_example() {
    let bytes = include_bytes!("../../../crates/sheetcount/stdin");
    let (mut out, mut spare) = ([0; 8192], [0; 8192]);
    assert_eq!(
        tally_sheet(bytes, Lot::WORLD, Span::ALL_TIME, &mut out, &mut spare)
            .unwrap()
            .bytes(),
        AIR
    );
}
