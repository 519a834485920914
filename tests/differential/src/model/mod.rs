//! Every operation once more, in the plainest way: nothing here is made to be fast, and no code is taken over from the
//! library. It is written from the scope document ("01") and the later requests ("02"), whose sections the comments
//! name; where they leave a choice it takes the reading of docs/DECISIONS.md, so a wrong reading would be shared and
//! not show as a difference.

pub mod blocks;
pub mod counting;
pub mod fields;
pub mod keys;
pub mod lots;
pub mod prices;
pub mod rows;
pub mod sheets;
pub mod tallies;
pub mod writing;

/// 01, "The numbers a call comes back with": which fault it was, and where.
#[derive(Clone, Copy, Debug, PartialEq, Eq)]
pub struct Refusal {
    pub number: u32,
    /// Of a sheet, from 0.
    pub record: u32,
    /// For a block's numbers (1, 2, 4 to 8, 31 to 38), where the field starts.
    pub offset: usize,
}

impl Refusal {
    pub fn plain(number: u32) -> Refusal {
        Refusal { number, record: 0, offset: 0 }
    }

    pub fn at(number: u32, offset: usize) -> Refusal {
        Refusal { number, record: 0, offset }
    }

    pub fn of_record(number: u32, record: u32) -> Refusal {
        Refusal { number, record, offset: 0 }
    }
}
