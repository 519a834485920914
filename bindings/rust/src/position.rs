//! Keys and coordinates of blocks, lots and spans.
use crate::raw;
pub use crate::raw::{Lot, Span};
use crate::refusal::{judge, Refused};

/// The key of a block's coordinates x, y and z, each -2048..2047. Refused: 9.
pub fn key_join([x, y, z]: [i32; 3]) -> Result<i64, Refused> {
    let joined = unsafe { raw::anow_key_join(x, y, z) };
    judge(joined.number).map(|()| joined.key)
}

/// The block's coordinates x, y and z. Refused: 9.
pub fn key_split(key: i64) -> Result<[i32; 3], Refused> {
    let split = unsafe { raw::anow_key_split(key) };
    judge(split.number).map(|()| [split.x, split.y, split.z])
}

impl Lot {
    /// The whole world.
    pub const WORLD: Lot = Lot {
        x0: -32768,
        y0: -32768,
        z0: -32768,
        x1: 32767,
        y1: 32767,
        z1: 32767,
    };

    /// The lot from the least x, y and z to the greatest, both inside. Refused: 10 for one out of the world or turned round.
    pub fn new([x0, y0, z0]: [i32; 3], [x1, y1, z1]: [i32; 3]) -> Result<Lot, Refused> {
        let lot = Lot { x0, y0, z0, x1, y1, z1 };
        lot.has([x0, y0, z0]).map(|_| lot)
    }

    /// Whether a node stands in the lot. Refused: 10 for a bad lot.
    pub fn has(self, [x, y, z]: [i32; 3]) -> Result<bool, Refused> {
        let asked = unsafe { raw::anow_lot_has(self, x, y, z) };
        judge(asked.number).map(|()| asked.inside == 1)
    }
}

impl Span {
    /// Every second that is known; 0xffffffff, which stands for none, lies in no span.
    pub const ALL_TIME: Span = Span {
        from: 0,
        until: u32::MAX,
    };

    /// The seconds from `from` on, up to and without `until`. Refused: 10 for a span turned round.
    pub fn new(from: u32, until: u32) -> Result<Span, Refused> {
        let span = Span { from, until };
        span.has(from).map(|_| span)
    }

    /// Whether a second lies in the span. Refused: 10 for a bad span.
    pub fn has(self, second: u32) -> Result<bool, Refused> {
        let asked = unsafe { raw::anow_span_has(self, second) };
        judge(asked.number).map(|()| asked.inside == 1)
    }
}
