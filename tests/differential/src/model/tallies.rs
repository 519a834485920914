//! 01, "Tallies, lots, spans, sheets": tallies, adding and merging. A tally is a map from names to counts; the map's
//! own order is that of the bytes, a prefix first.

use super::fields::Fields;
use super::Refusal;
use std::collections::BTreeMap;

/// Counts may grow above 2^64-1 here; writing them is then refused.
pub type Counts = BTreeMap<Vec<u8>, u128>;

/// The counts of a well-formed tally; nothing for 13.
pub fn parse(bytes: &[u8]) -> Option<Counts> {
    let mut fields = Fields::new(bytes);
    let mark = fields.run(3).ok()?;
    let version = fields.u16().ok()?;
    if &bytes[mark] != b"TLY" || version != 1 {
        return None;
    }
    let mut counts = Counts::new();
    for _ in 0..fields.u32().ok()? {
        let length = fields.u16().ok()?;
        let name = &bytes[fields.run(usize::from(length)).ok()?];
        let count = fields.u64().ok()?;
        let rises = counts.last_key_value().is_none_or(|(before, _)| before.as_slice() < name);
        if count < 1 || !rises {
            return None;
        }
        counts.insert(name.to_vec(), u128::from(count));
    }
    fields.are_at_end().then_some(counts)
}

pub fn check(bytes: &[u8]) -> Result<(), Refusal> {
    parse(bytes).map(drop).ok_or(Refusal::plain(13))
}

/// How many bytes a tally of these counts has.
pub fn length(counts: &Counts) -> usize {
    9 + counts.keys().map(|name| 2 + name.len() + 8).sum::<usize>()
}

/// 14: "a count above 2^64-1, or more than 2^32-1 rows".
fn judge_counts(counts: &Counts) -> Result<(), Refusal> {
    let few_rows = u32::try_from(counts.len()).is_ok();
    if few_rows && counts.values().all(|&count| u64::try_from(count).is_ok()) {
        Ok(())
    } else {
        Err(Refusal::plain(14))
    }
}

/// 11: "result longer than the output lent".
pub fn judge_room(counts: &Counts, room: usize) -> Result<(), Refusal> {
    if length(counts) > room {
        return Err(Refusal::plain(11));
    }
    Ok(())
}

pub fn bytes_of(counts: &Counts) -> Vec<u8> {
    let mut bytes = b"TLY\0\x01".to_vec();
    bytes.extend((counts.len() as u32).to_be_bytes());
    for (name, &count) in counts {
        bytes.extend((name.len() as u16).to_be_bytes());
        bytes.extend(name);
        bytes.extend((count as u64).to_be_bytes());
    }
    bytes
}

/// "Adding: 12, 13 (also a stated length beyond the buffer), 14, 11." The tally after it, "adding 0 changes nothing".
pub fn add(buffer: &[u8], stated: u64, name: &[u8], count: u64) -> Result<Vec<u8>, Refusal> {
    if name.len() > 65_535 {
        return Err(Refusal::plain(12));
    }
    if stated > buffer.len() as u64 {
        return Err(Refusal::plain(13));
    }
    let tally = &buffer[..stated as usize];
    let mut counts = parse(tally).ok_or(Refusal::plain(13))?;
    if count == 0 {
        return Ok(tally.to_vec());
    }
    *counts.entry(name.to_vec()).or_insert(0) += u128::from(count);
    judge_counts(&counts)?;
    judge_room(&counts, buffer.len())?;
    Ok(bytes_of(&counts))
}

/// "Each name in any of them with its counts added."
pub fn add_to(sum: &mut Counts, counts: &Counts) {
    for (name, count) in counts {
        *sum.entry(name.clone()).or_insert(0) += count;
    }
}

/// "Merging: 13 (first tally first), 14, 11."
pub fn merge(first: &[u8], second: &[u8], room: usize) -> Result<Vec<u8>, Refusal> {
    let mut sum = parse(first).ok_or(Refusal::plain(13))?;
    add_to(&mut sum, &parse(second).ok_or(Refusal::plain(13))?);
    judge_counts(&sum)?;
    judge_room(&sum, room)?;
    Ok(bytes_of(&sum))
}
