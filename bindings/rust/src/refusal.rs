//! Refusals: the numbers of documents 01 and 02 with their words, and where the fault lies.
use crate::raw;
use std::error::Error;
use std::fmt;

/// Why a call was refused: the numbers of documents 01 and 02, to which others may be added.
// numbers: made by bindings/make from bindings/numbers.txt
#[derive(Clone, Copy, Debug, PartialEq, Eq, Hash)]
#[non_exhaustive]
#[repr(u32)]
pub enum Refusal {
    /// the bytes end inside a field, or an inventory has no end line
    EndsInside = 1,
    /// the version is not 22 to 29
    VersionOutside = 2,
    /// a position is above 4095
    PositionAbove = 4,
    /// a position stands in its list already
    PositionTwice = 5,
    /// an id is mapped already
    IdTwice = 6,
    /// bytes follow the end of the block
    BytesAfter = 7,
    /// a node has an id that is not mapped to a name
    IdUnmapped = 8,
    /// a key or a coordinate is out of range
    OutOfRange = 9,
    /// the lot is out of the world or turned round, or the span is turned round
    BadPart = 10,
    /// the result is longer than the output lent
    NoRoom = 11,
    /// the parts do not fit
    PartsMisfit = 12,
    /// the tally is malformed
    TallyMalformed = 13,
    /// a count or a total is above 2^64-1, or there are more than 2^32-1 rows
    TooMany = 14,
    /// the mark, the version or the framing of the sheet is wrong, or its keys do not rise
    SheetMalformed = 15,
    /// there is no such row or node
    NoSuch = 16,
    /// the content width is not 1 up to version 23, or not 2 from version 24
    ContentWidthDiffers = 31,
    /// the params width is not 2
    ParamsWidthDiffers = 32,
    /// the metadata list version is not 1 in version 22, not 0 or 1 in versions 23 to 27, or not 0 or 2 from version 28
    MetadataVersionDiffers = 33,
    /// the private byte of a metadata variable is not 0 or 1
    PrivateByteDiffers = 34,
    /// the timer byte is not 0 in version 23, or not 0 or 1 in version 24
    TimerByteDiffers = 35,
    /// the static object version is not 0
    ObjectVersionDiffers = 36,
    /// the name mapping version is not 0
    MappingVersionDiffers = 37,
    /// the timer row length is not 10
    TimerRowLengthDiffers = 38,
    /// the rate sheet is malformed
    RatesMalformed = 40,
}

use Refusal::*;

/// Each refusal, whether it has an offset, and its words.
#[rustfmt::skip]
const TABLE: [(Refusal, bool, &str); 24] = [
    (EndsInside, true, "the bytes end inside a field, or an inventory has no end line"),
    (VersionOutside, true, "the version is not 22 to 29"),
    (PositionAbove, true, "a position is above 4095"),
    (PositionTwice, true, "a position stands in its list already"),
    (IdTwice, true, "an id is mapped already"),
    (BytesAfter, true, "bytes follow the end of the block"),
    (IdUnmapped, true, "a node has an id that is not mapped to a name"),
    (OutOfRange, false, "a key or a coordinate is out of range"),
    (BadPart, false, "the lot is out of the world or turned round, or the span is turned round"),
    (NoRoom, false, "the result is longer than the output lent"),
    (PartsMisfit, false, "the parts do not fit"),
    (TallyMalformed, false, "the tally is malformed"),
    (TooMany, false, "a count or a total is above 2^64-1, or there are more than 2^32-1 rows"),
    (SheetMalformed, false, "the mark, the version or the framing of the sheet is wrong, or its keys do not rise"),
    (NoSuch, false, "there is no such row or node"),
    (ContentWidthDiffers, true, "the content width is not 1 up to version 23, or not 2 from version 24"),
    (ParamsWidthDiffers, true, "the params width is not 2"),
    (MetadataVersionDiffers, true, "the metadata list version is not 1 in version 22, not 0 or 1 in versions 23 to 27, or not 0 or 2 from version 28"),
    (PrivateByteDiffers, true, "the private byte of a metadata variable is not 0 or 1"),
    (TimerByteDiffers, true, "the timer byte is not 0 in version 23, or not 0 or 1 in version 24"),
    (ObjectVersionDiffers, true, "the static object version is not 0"),
    (MappingVersionDiffers, true, "the name mapping version is not 0"),
    (TimerRowLengthDiffers, true, "the timer row length is not 10"),
    (RatesMalformed, false, "the rate sheet is malformed"),
];
// end of numbers

impl Refusal {
    /// Every refusal, in the order of the numbers.
    pub fn all() -> impl Iterator<Item = Refusal> {
        TABLE.iter().map(|row| row.0)
    }

    pub fn from_number(number: u32) -> Option<Refusal> {
        Refusal::all().find(|refusal| refusal.number() == number)
    }

    pub fn number(self) -> u32 {
        self as u32
    }

    /// What the refusal means, in a line that can be read out.
    pub fn words(self) -> &'static str {
        self.row().2
    }

    /// Whether this refusal has an offset. Those that have one are the block's numbers: a block, or a row of one, is refused with one of them.
    pub fn has_offset(self) -> bool {
        self.row().1
    }

    fn row(self) -> &'static (Refusal, bool, &'static str) {
        TABLE
            .iter()
            .find(|row| row.0 == self)
            .expect("every refusal is in the table")
    }
}

impl fmt::Display for Refusal {
    fn fmt(&self, f: &mut fmt::Formatter) -> fmt::Result {
        write!(f, "refused {}: {}", self.number(), self.words())
    }
}

impl Error for Refusal {}

/// A refused call. All output lent to it is as it was, but for the spare of [`tally_sheet`](crate::tally_sheet).
#[derive(Clone, Copy, Debug, PartialEq, Eq, Hash)]
pub struct Refused {
    pub refusal: Refusal,
    /// Where the field that was refused starts, from the first byte of its block or part.
    pub offset: Option<u64>,
    /// For a sheet the record, from 0; the number of records where no record has the fault.
    pub record: Option<u32>,
}

impl Refused {
    fn new(number: u32, offset: u64, record: Option<u32>) -> Refused {
        let refusal = Refusal::from_number(number)
            .unwrap_or_else(|| panic!("the library gave number {number}, which bindings/numbers.txt does not have"));
        Refused {
            refusal,
            offset: refusal.has_offset().then_some(offset),
            record,
        }
    }
}

impl fmt::Display for Refused {
    fn fmt(&self, f: &mut fmt::Formatter) -> fmt::Result {
        write!(f, "refused {}", self.refusal.number())?;
        match (self.offset, self.record) {
            (Some(offset), Some(record)) => write!(f, " at offset {offset} of record {record}")?,
            (Some(offset), None) => write!(f, " at offset {offset}")?,
            (None, Some(record)) => write!(f, " at record {record}")?,
            (None, None) => {}
        }
        write!(f, ": {}", self.refusal.words())
    }
}

impl Error for Refused {}

fn judged(number: u32, offset: u64, record: Option<u32>) -> Result<(), Refused> {
    match number {
        0 => Ok(()),
        _ => Err(Refused::new(number, offset, record)),
    }
}

/// For answers that tell a number alone.
pub(crate) fn judge(number: u32) -> Result<(), Refused> {
    judged(number, 0, None)
}

/// The length told, for answers about one block, part or tally.
pub(crate) fn told(answer: raw::Answer) -> Result<usize, Refused> {
    judged(answer.number, answer.offset, None).map(|()| answer.length as usize)
}

/// The same for a sheet, whose refusals have a record.
pub(crate) fn told_of_sheet(answer: raw::Answer) -> Result<usize, Refused> {
    judged(answer.number, answer.offset, Some(answer.record)).map(|()| answer.length as usize)
}
