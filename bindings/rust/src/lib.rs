//! Anowhetele: the nodes standing on a lot of a Luanti world, counted name by name, and what they cost. Safe functions over slices, on a library that
//! is proved.
//!
//! ```
//! use anowhetele::{tally_sheet, Lot, Span};
//!
//! let sheet = b"WSH\x00\x01\x00\x00\x00\x00";
//! let (mut out, mut spare) = ([0; 8192], [0; 8192]);
//! let tally = tally_sheet(sheet, Lot::WORLD, Span::ALL_TIME, &mut out, &mut spare)?;
//! for row in tally {
//!     println!("{} {}", row.count, String::from_utf8_lossy(row.name));
//! }
//!
//! let refused = tally_sheet(&sheet[..8], Lot::WORLD, Span::ALL_TIME, &mut out, &mut spare).unwrap_err();
//! assert_eq!(refused.to_string(), "refused 15 at record 0: the mark, the version or the framing of the sheet is wrong, or its keys do not rise");
//! # Ok::<(), anowhetele::Refused>(())
//! ```
//!
//! What the same nodes cost by a rate sheet, in thousandths:
//!
//! ```
//! use anowhetele::{price_sheet, rate_sheet, Lot, Rate, Span};
//!
//! let rates = rate_sheet([Rate { name: b"default:stone", from: 1_000_000, price: 1500 }])?;
//! let bill = price_sheet(b"WSH\x00\x01\x00\x00\x00\x00", &rates, Lot::WORLD, Span::ALL_TIME)?;
//! assert_eq!((bill.total, bill.unpriced), (0, 0));
//! # Ok::<(), Box<dyn std::error::Error>>(())
//! ```
//!
//! A function may be called from any thread that has 1 MB of stack.
mod block;
mod position;
mod price;
pub mod raw;
mod refusal;
mod rows;
mod tally;

pub use block::{light_count, node_name, read, sections, write, Block, Head, LIST_COUNTED, LIST_ZERO, NODES};
pub use position::{key_join, key_split, Lot, Span};
pub use price::{check_rates, price_block, price_sheet, rate_rows, rate_sheet, BadRates, Bill, Rate};
pub use refusal::{Refusal, Refused};
pub use rows::{
    metadata_row, metadata_rows, name_row, name_rows, object_row, object_rows, timer_row, timer_rows, Front,
    MetadataContent, MetadataRow, NameRow, ObjectRow, TimerRow,
};
pub use tally::{tally_add, tally_block, tally_sheet, Row, Rows, Tally};
