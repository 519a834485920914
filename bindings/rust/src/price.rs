//! Rate sheets: making them, checking them, their rates, and what the nodes of blocks and sheets cost by them.
use crate::raw::{self, Lot, Span};
use crate::refusal::{told, told_of_sheet, Refused};
use crate::tally::{array, HEAD};
use std::error::Error;
use std::fmt;

/// What a node of a name costs, in thousandths, in a block saved at `from` or later, up to the name's next rate.
#[derive(Clone, Copy, Debug, PartialEq, Eq, PartialOrd, Ord)]
pub struct Rate<'a> {
    pub name: &'a [u8],
    pub from: u32,
    pub price: u32,
}

/// Why rates make no rate sheet.
#[derive(Clone, Debug, PartialEq, Eq)]
#[non_exhaustive]
pub enum BadRates {
    /// A name is longer than 65,535 bytes.
    NameTooLong { length: usize },
    /// A name has two rates from one second on.
    Twice { name: Vec<u8>, from: u32 },
    /// There are more than 2^32-1 rates.
    TooMany { count: usize },
}

impl fmt::Display for BadRates {
    fn fmt(&self, f: &mut fmt::Formatter) -> fmt::Result {
        match self {
            BadRates::NameTooLong { length } => write!(f, "a name of {length} bytes, more than 65535"),
            BadRates::Twice { name, from } => write!(f, "two rates of {} from second {from} on", name.escape_ascii()),
            BadRates::TooMany { count } => write!(f, "{count} rates, more than 2^32-1"),
        }
    }
}

impl Error for BadRates {}

/// The bytes of the rate sheet that has these rates, which may come in any order.
pub fn rate_sheet<'a>(rates: impl IntoIterator<Item = Rate<'a>>) -> Result<Vec<u8>, BadRates> {
    let mut rates: Vec<Rate> = rates.into_iter().collect();
    // by name, then by second, as the rates of a sheet stand; the price comes last
    rates.sort_unstable();
    for pair in rates.windows(2) {
        if (pair[0].name, pair[0].from) == (pair[1].name, pair[1].from) {
            let (name, from) = (pair[0].name.to_vec(), pair[0].from);
            return Err(BadRates::Twice { name, from });
        }
    }
    let count = u32::try_from(rates.len()).map_err(|_| BadRates::TooMany { count: rates.len() })?;
    let mut bytes = b"RTE\x00\x01".to_vec();
    bytes.extend(count.to_be_bytes());
    for Rate { name, from, price } in rates {
        let length = u16::try_from(name.len()).map_err(|_| BadRates::NameTooLong { length: name.len() })?;
        bytes.extend(length.to_be_bytes());
        bytes.extend(name);
        bytes.extend(from.to_be_bytes());
        bytes.extend(price.to_be_bytes());
    }
    Ok(bytes)
}

/// Whether bytes are a rate sheet. Refused: 40 where they are none.
pub fn check_rates(rates: &[u8]) -> Result<(), Refused> {
    told(unsafe { raw::anow_rates_check(rates.as_ptr(), rates.len()) }).map(|_| ())
}

/// The rates of a rate sheet, by name and then by second. Refused: 40.
pub fn rate_rows(rates: &[u8]) -> Result<impl Iterator<Item = Rate<'_>>, Refused> {
    check_rates(rates)?;
    let mut rest = &rates[HEAD..];
    Ok(std::iter::from_fn(move || {
        let (length, behind) = rest.split_at_checked(2)?;
        let (name, behind) = behind.split_at(u16::from_be_bytes(array(length)) as usize);
        let (from, behind) = behind.split_at(4);
        let (price, behind) = behind.split_at(4);
        rest = behind;
        Some(Rate {
            name,
            from: u32::from_be_bytes(array(from)),
            price: u32::from_be_bytes(array(price)),
        })
    }))
}

/// What nodes cost, in thousandths, and how many of them have no price.
#[derive(Clone, Copy, Debug, PartialEq, Eq)]
pub struct Bill {
    pub total: u64,
    pub unpriced: u64,
}

impl From<raw::Bill> for Bill {
    fn from(raw::Bill { total, unpriced, .. }: raw::Bill) -> Bill {
        Bill { total, unpriced }
    }
}

/// Prices the nodes of the block at a key that stand in a lot, if the block was saved within a span: each costs the price of the rate of its name
/// with the greatest `from` not above the block's timestamp, and a node with no such rate is unpriced.
/// Refused: 10; 40; 9; the block's numbers.
pub fn price_block(key: i64, block: &[u8], rates: &[u8], lot: Lot, span: Span) -> Result<Bill, Refused> {
    let (start, length) = (block.as_ptr(), block.len());
    let bill = unsafe { raw::anow_price_block(key, start, length, rates.as_ptr(), rates.len(), lot, span) };
    told(bill.answer).map(|_| bill.into())
}

/// The same of a sheet.
/// Refused: 10; 40; 15; by record 15, 9, 15 and the block's numbers; 14 for a total above 2^64-1.
pub fn price_sheet(sheet: &[u8], rates: &[u8], lot: Lot, span: Span) -> Result<Bill, Refused> {
    let (start, length) = (sheet.as_ptr(), sheet.len());
    let bill = unsafe { raw::anow_price_sheet(start, length, rates.as_ptr(), rates.len(), lot, span) };
    told_of_sheet(bill.answer).map(|_| bill.into())
}
