//! 01, "Tallies, lots, spans, sheets": lots and spans. And the light count.

use super::Refusal;
use anowhetele::raw::{Lot, Span};

/// "six inclusive node coordinates, least not above greatest on each axis"; a node coordinate is -32768..32767.
pub fn is_good_lot(lot: Lot) -> bool {
    let in_world = |coordinate: i32| (-32768..=32767).contains(&coordinate);
    let all = [lot.x0, lot.y0, lot.z0, lot.x1, lot.y1, lot.z1];
    all.into_iter().all(in_world) && lot.x0 <= lot.x1 && lot.y0 <= lot.y1 && lot.z0 <= lot.z1
}

pub fn is_in_lot(lot: Lot, x: i32, y: i32, z: i32) -> bool {
    (lot.x0..=lot.x1).contains(&x) && (lot.y0..=lot.y1).contains(&y) && (lot.z0..=lot.z1).contains(&z)
}

/// "from not above until".
pub fn is_good_span(span: Span) -> bool {
    span.from <= span.until
}

/// "u32 from (inside) and until (outside) ... 0xffffffff never does".
pub fn is_in_span(span: Span, second: u32) -> bool {
    second != 0xffff_ffff && span.from <= second && second < span.until
}

/// 10: "lot out of the world or turned round; span turned round".
pub fn judge(lot: Lot, span: Span) -> Result<(), Refusal> {
    if is_good_lot(lot) && is_good_span(span) {
        Ok(())
    } else {
        Err(Refusal::plain(10))
    }
}

pub fn lot_has(lot: Lot, x: i32, y: i32, z: i32) -> Result<bool, Refusal> {
    if !is_good_lot(lot) {
        return Err(Refusal::plain(10));
    }
    Ok(is_in_lot(lot, x, y, z))
}

pub fn span_has(span: Span, second: u32) -> Result<bool, Refusal> {
    if !is_good_span(span) {
        return Err(Refusal::plain(10));
    }
    Ok(is_in_span(span, second))
}

/// "how many of the low twelve lighting bits are zero".
pub fn light_count(lighting: u16) -> u32 {
    (0..12).filter(|bit| lighting & 1 << bit == 0).count() as u32
}
