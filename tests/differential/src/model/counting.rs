//! 01, "Tallies, lots, spans, sheets": which nodes of a block count. Every node is walked and tried.

use super::blocks::{self, ReadBlock};
use super::tallies::{self, Counts};
use super::{keys, lots, Refusal};
use anowhetele::raw::{Lot, Span};

/// A block that was read: its bytes, what they hold, and the coordinates of its key.
pub struct Placed<'a> {
    pub bytes: &'a [u8],
    pub block: ReadBlock,
    pub coordinates: [i32; 3],
}

/// For each node that stands in the lot, if the block's timestamp lies in the span, the number of its name row.
pub fn counted_rows(placed: &Placed, lot: Lot, span: Span) -> Vec<usize> {
    let Placed { block, coordinates, .. } = placed;
    if !lots::is_in_span(span, block.head.timestamp) {
        return Vec::new();
    }
    let is_counted = |index: &usize| {
        let [x, y, z] = node_coordinates(*coordinates, *index);
        lots::is_in_lot(lot, x, y, z)
    };
    (0..4096).filter(is_counted).map(|index| block.mapping.row_of(block.content_id(index)).unwrap()).collect()
}

/// Adds the block's nodes that count. The names are looked up in each block, so two ids with one name add up, and so do
/// two blocks that number their names differently.
pub fn count_block(sum: &mut Counts, placed: &Placed, lot: Lot, span: Span) {
    let Placed { bytes, block, .. } = placed;
    let mut count_of_row = vec![0; block.mapping.rows.len()];
    for row in counted_rows(placed, lot, span) {
        count_of_row[row] += 1;
    }
    for (row, count) in block.mapping.rows.iter().zip(count_of_row) {
        // "Only names with a count appear."
        if count > 0 {
            *sum.entry(bytes[row.name.clone()].to_vec()).or_insert(0) += count;
        }
    }
}

/// "Node coordinate = 16·block coordinate + 0..15. Node index in a block = 256·z + 16·y + x."
fn node_coordinates([x, y, z]: [i32; 3], index: usize) -> [i32; 3] {
    let index = index as i32;
    [16 * x + index % 16, 16 * y + index / 16 % 16, 16 * z + index / 256]
}

/// "One block's tally: 10, 9, 1 to 8" (and 31 to 38 for 3), "11."
pub fn tally_block(key: i64, bytes: &[u8], lot: Lot, span: Span, room: usize) -> Result<Vec<u8>, Refusal> {
    lots::judge(lot, span)?;
    let coordinates = keys::split(key)?;
    let placed = Placed { bytes, block: blocks::read(bytes)?, coordinates };
    let mut counts = Counts::new();
    count_block(&mut counts, &placed, lot, span);
    tallies::judge_room(&counts, room)?;
    Ok(tallies::bytes_of(&counts))
}
