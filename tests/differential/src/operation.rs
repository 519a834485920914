//! The operations, the numbers that the orders of 01 and 02 allow each of them, and how often each number was seen.

#[derive(Clone, Copy, Debug, PartialEq, Eq)]
pub enum Operation {
    KeyJoin,
    KeySplit,
    LotHas,
    SpanHas,
    LightCount,
    Read,
    Sections,
    NodeName,
    RowName,
    RowMetadata,
    RowObject,
    RowTimer,
    Write,
    TallyCheck,
    TallyAdd,
    TallyMerge,
    TallyBlock,
    TallySheet,
    RatesCheck,
    PriceBlock,
    PriceSheet,
}

use Operation::*;

impl Operation {
    pub fn name(self) -> &'static str {
        OPERATIONS[self as usize].1
    }
}

/// The numbers with which a block is refused.
const BLOCK: &[u32] = &[1, 2, 4, 5, 6, 7, 8, 31, 32, 33, 34, 35, 36, 37, 38];

/// Each operation with its C name, its own numbers, and those of a block where it judges one. No sheet that fits in
/// memory has more than 2^32-1 rows in its tally, or a total above 2^64-1, so a sheet has no 14 here.
const OPERATIONS: [(Operation, &str, &[u32], &[u32]); 21] = [
    (KeyJoin, "anow_key_join", &[0, 9], &[]),
    (KeySplit, "anow_key_split", &[0, 9], &[]),
    (LotHas, "anow_lot_has", &[0, 10], &[]),
    (SpanHas, "anow_span_has", &[0, 10], &[]),
    (LightCount, "anow_light_count", &[0], &[]),
    (Read, "anow_read", &[0, 12], BLOCK),
    (Sections, "anow_sections", &[0], BLOCK),
    (NodeName, "anow_node_name", &[0, 16], BLOCK),
    (RowName, "anow_row_name", &[0, 1, 16], &[]),
    (RowMetadata, "anow_row_metadata", &[0, 1, 2, 4, 16, 34], &[]),
    (RowObject, "anow_row_object", &[0, 1, 16], &[]),
    (RowTimer, "anow_row_timer", &[0, 1, 4, 16], &[]),
    (Write, "anow_write", &[0, 2, 4, 5, 6, 8, 11, 12, 34, 35], &[]),
    (TallyCheck, "anow_tally_check", &[0, 13], &[]),
    (TallyAdd, "anow_tally_add", &[0, 11, 12, 13, 14], &[]),
    (TallyMerge, "anow_tally_merge", &[0, 11, 13, 14], &[]),
    (TallyBlock, "anow_tally_block", &[0, 9, 10, 11], BLOCK),
    (TallySheet, "anow_tally_sheet", &[0, 9, 10, 11, 12, 15], BLOCK),
    (RatesCheck, "anow_rates_check", &[0, 40], &[]),
    (PriceBlock, "anow_price_block", &[0, 9, 10, 40], BLOCK),
    (PriceSheet, "anow_price_sheet", &[0, 9, 10, 15, 40], BLOCK),
];

/// The numbers that a call may come back with, each a column of the table.
#[rustfmt::skip]
const NUMBERS: [u32; 25] = [
    0, 1, 2, 4, 5, 6, 7, 8, 9, 10, 11, 12, 13, 14, 15, 16, 31, 32, 33, 34, 35, 36, 37, 38, 40,
];

fn column(number: u32) -> usize {
    NUMBERS.iter().position(|&known| known == number).expect("a number of the table")
}

/// How often each operation came back with each number.
#[derive(Clone, Default)]
pub struct Table {
    seen: [[u64; NUMBERS.len()]; OPERATIONS.len()],
}

impl Table {
    pub fn count(&mut self, operation: Operation, number: u32) {
        self.seen[operation as usize][column(number)] += 1;
    }

    pub fn add(&mut self, other: &Table) {
        for (row, other_row) in self.seen.iter_mut().zip(&other.seen) {
            for (count, other_count) in row.iter_mut().zip(other_row) {
                *count += other_count;
            }
        }
    }

    pub fn calls(&self) -> u64 {
        self.seen.iter().flatten().sum()
    }

    /// What the orders of 01 and 02 allow and no call came back with.
    pub fn never_seen(&self) -> Vec<String> {
        let mut missing = Vec::new();
        for (operation, name, own, block) in OPERATIONS {
            let row = &self.seen[operation as usize];
            let unseen = own.iter().chain(block).filter(|&&number| row[column(number)] == 0);
            missing.extend(unseen.map(|number| format!("{name} never came back with {number}")));
        }
        missing
    }

    pub fn print(&self) {
        print!("{:18}", "");
        NUMBERS.iter().for_each(|number| print!("{number:>8}"));
        println!();
        for (operation, name, ..) in OPERATIONS {
            print!("{name:18}");
            for &count in &self.seen[operation as usize] {
                let text = if count == 0 { ".".to_string() } else { count.to_string() };
                print!("{text:>8}");
            }
            println!();
        }
    }
}
