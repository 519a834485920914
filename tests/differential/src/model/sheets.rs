//! 01, "Tallies, lots, spans, sheets": the records of a sheet, and its tally.

use super::counting::{self, Placed};
use super::fields::Fields;
use super::tallies::{self, Counts};
use super::{blocks, keys, lots, Refusal};
use anowhetele::raw::{Lot, Span};

/// "Sheet: 10, 12, header 15, all as record 0, then by record; then trailing bytes 15 with the record count as record;
/// then 11, then 14 (rows), both with the record count as record."
pub fn tally_sheet(sheet: &[u8], lot: Lot, span: Span, room: usize, spare: usize) -> Result<Vec<u8>, Refusal> {
    lots::judge(lot, span)?;
    if spare < room {
        return Err(Refusal::plain(12));
    }
    let mut counts = Counts::new();
    let records = walk(sheet, |placed| counting::count_block(&mut counts, placed, lot, span))?;
    finish(&counts, records, room)
}

/// "Header 15, as record 0, then by record: framing 15, key 9, rising 15, block 1 to 8" (and 31 to 38 for 3); "then
/// trailing bytes 15 with the record count as record." Hands on each block, and tells how many there are.
pub fn walk(sheet: &[u8], mut each: impl FnMut(&Placed)) -> Result<u32, Refusal> {
    let mut fields = Fields::new(sheet);
    let records = header(&mut fields).ok_or(Refusal::plain(15))?;
    let mut key_before = None;
    for record in 0..records {
        let (key, bytes) = frame(&mut fields).map_err(|_| Refusal::of_record(15, record))?;
        let coordinates = keys::split(key).map_err(|refusal| Refusal { record, ..refusal })?;
        if key_before.is_some_and(|before| key <= before) {
            return Err(Refusal::of_record(15, record));
        }
        key_before = Some(key);
        let block = blocks::read(bytes).map_err(|refusal| Refusal { record, ..refusal })?;
        each(&Placed { bytes, block, coordinates });
    }
    if !fields.are_at_end() {
        return Err(Refusal::of_record(15, records));
    }
    Ok(records)
}

/// "`WSH`, u16 version 1, u32 number of records".
fn header(fields: &mut Fields) -> Option<u32> {
    let mark = fields.run(3).ok()?;
    let version = fields.u16().ok()?;
    let records = fields.u32().ok()?;
    (&fields.bytes[mark] == b"WSH" && version == 1).then_some(records)
}

/// "records of s64 key, u32 length, block".
fn frame<'a>(fields: &mut Fields<'a>) -> Result<(i64, &'a [u8]), Refusal> {
    let key = fields.s64()?;
    let length = fields.u32()?;
    let block = fields.run(length as usize)?;
    Ok((key, &fields.bytes[block]))
}

/// No sheet that fits in memory reaches 2^32 rows, and no count 2^64, so 11 alone is left.
fn finish(counts: &Counts, records: u32, room: usize) -> Result<Vec<u8>, Refusal> {
    tallies::judge_room(counts, room).map_err(|refusal| Refusal { record: records, ..refusal })?;
    Ok(tallies::bytes_of(counts))
}
