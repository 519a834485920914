//! 01, "Position keys".

use super::Refusal;

/// 0x800800800
const SHIFT: i128 = 34_368_129_024;

/// "Key = z·16,777,216 + y·4,096 + x, each coordinate -2048..2047."
pub fn join(x: i32, y: i32, z: i32) -> Result<i64, Refusal> {
    if [x, y, z].iter().any(|coordinate| !(-2048..=2047).contains(coordinate)) {
        return Err(Refusal::plain(9));
    }
    Ok(i64::from(z) * 16_777_216 + i64::from(y) * 4_096 + i64::from(x))
}

/// "Add 34,368,129,024 to a key: it is valid exactly when the sum is 0..2^36-1; then the three twelve-bit fields,
/// lowest first, each less 2048, are x, y, z."
pub fn split(key: i64) -> Result<[i32; 3], Refusal> {
    let sum = i128::from(key) + SHIFT;
    if !(0..1 << 36).contains(&sum) {
        return Err(Refusal::plain(9));
    }
    let field = |index: u32| (sum / 4096_i128.pow(index) % 4096) as i32 - 2048;
    Ok([field(0), field(1), field(2)])
}
