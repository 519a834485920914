//! Tallies: checking, rows, adding, merging, and those of blocks and sheets.
use crate::raw::{self, Lot, Span};
use crate::refusal::{told, told_of_sheet, Refused};
use std::iter::FusedIterator;

/// The bytes before the rows of a tally, and of a rate sheet: a mark of three bytes, u16 version, u32 number of rows.
pub(crate) const HEAD: usize = 9;

/// The bytes of a well-formed tally.
#[derive(Clone, Copy, Debug, PartialEq, Eq)]
pub struct Tally<'a> {
    bytes: &'a [u8],
}

impl<'a> Tally<'a> {
    /// The tally of nothing.
    pub const EMPTY: Tally<'static> = Tally {
        bytes: b"TLY\x00\x01\x00\x00\x00\x00",
    };

    /// Refused: 13 for bytes that are no tally.
    pub fn new(bytes: &'a [u8]) -> Result<Tally<'a>, Refused> {
        told(unsafe { raw::anow_tally_check(bytes.as_ptr(), bytes.len()) })?;
        Ok(Tally { bytes })
    }

    pub fn bytes(self) -> &'a [u8] {
        self.bytes
    }

    /// The rows in the order of their names.
    pub fn rows(self) -> Rows<'a> {
        let left = u32::from_be_bytes(array(&self.bytes[HEAD - 4..HEAD])) as usize;
        Rows {
            rest: &self.bytes[HEAD..],
            left,
        }
    }

    /// The sum of two tallies, written to the front of an output. Refused: 14; 11.
    pub fn merge<'b>(self, other: Tally, out: &'b mut [u8]) -> Result<Tally<'b>, Refused> {
        let (a, b) = (self.bytes, other.bytes);
        let answer =
            unsafe { raw::anow_tally_merge(a.as_ptr(), a.len(), b.as_ptr(), b.len(), out.as_mut_ptr(), out.len()) };
        told(answer).map(|length| written(out, length))
    }
}

impl<'a> IntoIterator for Tally<'a> {
    type Item = Row<'a>;
    type IntoIter = Rows<'a>;

    fn into_iter(self) -> Rows<'a> {
        self.rows()
    }
}

/// How many nodes bear a name.
#[derive(Clone, Copy, Debug, PartialEq, Eq)]
pub struct Row<'a> {
    pub name: &'a [u8],
    pub count: u64,
}

/// The rows of a tally from the front.
#[derive(Clone, Debug)]
pub struct Rows<'a> {
    rest: &'a [u8],
    left: usize,
}

impl<'a> Iterator for Rows<'a> {
    type Item = Row<'a>;

    fn next(&mut self) -> Option<Row<'a>> {
        self.left = self.left.checked_sub(1)?;
        let (length, rest) = self.rest.split_at(2);
        let (name, rest) = rest.split_at(u16::from_be_bytes(array(length)) as usize);
        let (count, rest) = rest.split_at(8);
        self.rest = rest;
        Some(Row {
            name,
            count: u64::from_be_bytes(array(count)),
        })
    }

    fn size_hint(&self) -> (usize, Option<usize>) {
        (self.left, Some(self.left))
    }
}

impl ExactSizeIterator for Rows<'_> {}

impl FusedIterator for Rows<'_> {}

pub(crate) fn array<const N: usize>(bytes: &[u8]) -> [u8; N] {
    bytes.try_into().expect("as many bytes as the number has")
}

/// What the library wrote is a tally, and need not be checked again.
fn written(out: &mut [u8], length: usize) -> Tally<'_> {
    Tally { bytes: &out[..length] }
}

/// Adds a count to a name in the tally that the first `used` bytes of a buffer are, and tells the tally's length after.
/// Refused: 12 for a name above 65,535 bytes; 13; 14; 11.
pub fn tally_add(buffer: &mut [u8], used: usize, name: &[u8], count: u64) -> Result<usize, Refused> {
    let (start, room) = (buffer.as_mut_ptr(), buffer.len());
    told(unsafe { raw::anow_tally_add(start, room, used as u64, name.as_ptr(), name.len(), count) })
}

/// Tallies the nodes of the block at a key that stand in a lot, if the block was saved within a span, to the front of an output.
/// Refused: 10; 9; the block's numbers; 11.
pub fn tally_block<'a>(key: i64, block: &[u8], lot: Lot, span: Span, out: &'a mut [u8]) -> Result<Tally<'a>, Refused> {
    let (start, room) = (out.as_mut_ptr(), out.len());
    let answer = unsafe { raw::anow_tally_block(key, block.as_ptr(), block.len(), lot, span, start, room) };
    told(answer).map(|length| written(out, length))
}

/// The same of a sheet. The spare is at least as long as the output; what it holds afterwards is open, also after a refusal.
/// Refused: 10; 12 for a short spare; 15; by record 15, 9, 15 and the block's numbers; 11; 14.
pub fn tally_sheet<'a>(
    sheet: &[u8],
    lot: Lot,
    span: Span,
    out: &'a mut [u8],
    spare: &mut [u8],
) -> Result<Tally<'a>, Refused> {
    let answer = unsafe {
        raw::anow_tally_sheet(
            sheet.as_ptr(),
            sheet.len(),
            lot,
            span,
            out.as_mut_ptr(),
            out.len(),
            spare.as_mut_ptr(),
            spare.len(),
        )
    };
    told_of_sheet(answer).map(|length| written(out, length))
}
