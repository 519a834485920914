//! The tuned merge: both tallies are checked, then two cursors walk them and the rows of the sum are written straight
//! into the output. A refusal writes nothing, so where a count might be too large or the output too short, a walk that
//! only measures comes first; where neither can be, it is left out.

use crate::merging::Pair;
use crate::tallies::{AROUND, HEAD, START};
use std::cmp::Ordering;

/// As long as most rows, or longer.
const STRIDE: usize = 48;

/// Eight bytes as a number, which has the same order.
#[inline(always)]
fn word(bytes: &[u8], at: usize) -> u64 {
    u64::from_be_bytes(bytes[at..at + 8].try_into().expect("eight bytes"))
}

/// Names begin alike and are short, so a loop over words beats a call.
#[inline(always)]
fn order(a: &[u8], b: &[u8]) -> Ordering {
    let both = a.len().min(b.len());
    if both < 8 {
        return a.cmp(b);
    }
    let mut at = 0;
    loop {
        // The last word overlaps the one before it, where both are the same.
        let place = at.min(both - 8);
        let (x, y) = (word(a, place), word(b, place));
        if x != y {
            return x.cmp(&y);
        }
        at += 8;
        if at >= both {
            return a.len().cmp(&b.len());
        }
    }
}

/// A tally's rows, and the greatest of their counts.
struct Checked<'a> {
    rows: &'a [u8],
    greatest: u64,
}

/// Nothing where the tally is malformed.
fn check(tally: &[u8]) -> Option<Checked<'_>> {
    let (start, rest) = tally.split_first_chunk::<5>()?;
    let (count, rows) = rest.split_first_chunk::<4>()?;
    if start != START {
        return None;
    }
    let (mut left, mut last, mut greatest) = (rows, None, 0);
    for _ in 0..u32::from_be_bytes(*count) {
        let (length, rest) = left.split_first_chunk::<2>()?;
        let (name, rest) = rest.split_at_checked(u16::from_be_bytes(*length) as usize)?;
        let (count, rest) = rest.split_first_chunk::<8>()?;
        let count = u64::from_be_bytes(*count);
        if count == 0 || last.is_some_and(|last| order(last, name) != Ordering::Less) {
            return None;
        }
        greatest = greatest.max(count);
        (left, last) = (rest, Some(name));
    }
    left.is_empty().then_some(Checked { rows, greatest })
}

/// The rows of two checked tallies that are still to come.
struct Walk<'a> {
    x: &'a [u8],
    y: &'a [u8],
}

/// The next row of a sum: its size, the rows at whose front it stands, and the other tally's count of the same name.
struct Step<'a> {
    size: usize,
    from: &'a [u8],
    other: Option<u64>,
}

#[inline(always)]
fn front_name(rows: &[u8]) -> &[u8] {
    &rows[2..2 + u16::from_be_bytes([rows[0], rows[1]]) as usize]
}

impl<'a> Iterator for Walk<'a> {
    type Item = Step<'a>;

    #[inline(always)]
    fn next(&mut self) -> Option<Step<'a>> {
        let (x, y) = (self.x, self.y);
        let which = match (x.is_empty(), y.is_empty()) {
            (true, true) => return None,
            (true, false) => Ordering::Greater,
            (false, true) => Ordering::Less,
            (false, false) => order(front_name(x), front_name(y)),
        };
        let (first, second) = (which != Ordering::Greater, which != Ordering::Less);
        let from = if first { x } else { y };
        let size = front_name(from).len() + AROUND;
        // Moved by 0 or by the row, which takes no branch: nobody can foretell which it is.
        self.x = &x[if first { size } else { 0 }..];
        self.y = &y[if second { size } else { 0 }..];
        let other = (first & second).then(|| word(y, size - 8));
        Some(Step { size, from, other })
    }
}

/// The sum's length, or nothing where a count is too large.
fn measure(walk: Walk) -> Option<usize> {
    let mut length = HEAD;
    for step in walk {
        word(step.from, step.size - 8).checked_add(step.other.unwrap_or(0))?;
        length += step.size;
    }
    Some(length)
}

/// Copies a row to a place. Where the tally that it comes from goes on, so does the sum: then a fixed length is copied,
/// which takes no call, and the next rows are written over what was too much.
#[inline(always)]
fn copy_row(out: &mut [u8], at: usize, step: &Step) {
    match step.from.first_chunk::<STRIDE>() {
        Some(chunk) if step.size <= STRIDE => out[at..at + STRIDE].copy_from_slice(chunk),
        _ => out[at..at + step.size].copy_from_slice(&step.from[..step.size]),
    }
}

/// Writes a sum that fits and tells its length.
fn write(walk: Walk, out: &mut [u8]) -> usize {
    let (mut at, mut rows) = (HEAD, 0u32);
    for step in walk {
        copy_row(out, at, &step);
        at += step.size;
        rows += 1;
        if let Some(other) = step.other {
            let count = word(step.from, step.size - 8) + other;
            out[at - 8..at].copy_from_slice(&count.to_be_bytes());
        }
    }
    out[..5].copy_from_slice(START);
    out[5..HEAD].copy_from_slice(&rows.to_be_bytes());
    at
}

/// A sum has at most as many rows as both tallies; more than a u32 tells would take over 40 GB, which no pair here has.
pub fn merge(pair: &Pair, out: &mut [u8], _: &mut [u8]) -> Option<usize> {
    let (a, b) = (check(&pair.a)?, check(&pair.b)?);
    let walk = || Walk { x: a.rows, y: b.rows };
    let fits = HEAD + a.rows.len() + b.rows.len() <= out.len() && a.greatest.checked_add(b.greatest).is_some();
    if !fits && measure(walk())? > out.len() {
        return None;
    }
    Some(write(walk(), out))
}
