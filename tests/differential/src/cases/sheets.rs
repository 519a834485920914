//! Sheets, good and damaged.

use super::blocks::around;
use crate::compare::Compare;
use crate::make::lots;
use crate::make::sheets::{self, MadeSheet};
use anowhetele::raw::{Lot, Span};

pub fn sheets(compare: &mut Compare) {
    if compare.random.one_in(2) {
        let sheet = sheets::with_damaged_block(&mut compare.random);
        tally(compare, &sheet, &sheet.bytes);
        return;
    }
    let sheet = sheets::sheet(&mut compare.random);
    tally(compare, &sheet, &sheet.bytes);
    for _ in 0..3 {
        let bytes = sheets::damaged(&mut compare.random, &sheet);
        tally(compare, &sheet, &bytes);
    }
    rooms(compare, &sheet);
}

/// Rooms at the length of the whole tally and beside it, spares as long or a byte shorter.
fn rooms(compare: &mut Compare, sheet: &MadeSheet) {
    let whole = (Lot::WORLD, Span::ALL_TIME);
    let (_, result) = compare.tally_sheet(&sheet.bytes, whole, 50_000, 50_000);
    let room = around(compare, result.len());
    let spare = match compare.random.below(4) {
        0 => room.saturating_sub(1),
        1 => room + 7,
        _ => room,
    };
    compare.tally_sheet(&sheet.bytes, whole, room, spare);
    // A room that is too small tells what else is wrong first.
    let bytes = sheets::damaged(&mut compare.random, sheet);
    let small = compare.random.below(30);
    compare.tally_sheet(&bytes, whole, small, small);
}

fn tally(compare: &mut Compare, sheet: &MadeSheet, bytes: &[u8]) {
    let random = &mut compare.random;
    let lot = lots::lot(random, sheet.near);
    let span = lots::span(random, sheet.second);
    let room = if random.one_in(4) { random.below(100) } else { 20_000 };
    let spare = if random.one_in(12) { random.below(room + 1) } else { room + random.below(3) };
    compare.tally_sheet(bytes, (lot, span), room, spare);
}
