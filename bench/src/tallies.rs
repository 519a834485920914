//! Tallies as the two Rust programs keep, read and write them.

use crate::reading::{demand, Reader};
use std::collections::BTreeMap;

pub type Tally = BTreeMap<Vec<u8>, u64>;

/// Mark and version; the number of rows follows.
pub const START: &[u8; 5] = b"TLY\x00\x01";
/// The bytes before the first row.
pub const HEAD: usize = 9;
/// What a row has beside its name: a u16 length before it, a u64 count behind it.
pub const AROUND: usize = 10;

/// Hands each row to `row`, which judges it; nothing may follow the last one.
pub fn read_rows<'a, F>(tally: &'a [u8], mut row: F) -> Option<()>
where
    F: FnMut(&'a [u8], u64) -> Option<()>,
{
    let mut r = Reader { left: tally };
    demand(r.take(5)? == START)?;
    for _ in 0..r.u32()? {
        let length = r.u16()? as usize;
        let name = r.take(length)?;
        row(name, r.u64()?)?;
    }
    demand(r.left.is_empty())
}

pub fn write_tally(tally: &Tally, out: &mut [u8]) -> Option<usize> {
    let length = HEAD + tally.keys().map(|name| name.len() + AROUND).sum::<usize>();
    demand(length <= out.len())?;
    out[..5].copy_from_slice(START);
    out[5..HEAD].copy_from_slice(&(tally.len() as u32).to_be_bytes());
    let mut at = HEAD;
    for (name, count) in tally {
        let end = at + 2 + name.len();
        out[at..at + 2].copy_from_slice(&(name.len() as u16).to_be_bytes());
        out[at + 2..end].copy_from_slice(name);
        out[end..end + 8].copy_from_slice(&count.to_be_bytes());
        at = end + 8;
    }
    Some(length)
}
