//! Keys, lots and spans: the sums of document 01.
use anowhetele::{key_join, key_split, Lot, Refusal, Span};

#[test]
fn keys_match_coordinates() {
    let pairs = [
        ([0, 1, -2], -33_550_336),
        ([-1, 0, 0], -1),
        ([2047, 2047, 2047], 34_351_347_711),
        ([-2048, -2048, -2048], -34_368_129_024),
        ([-2048, 1, 0], 2048),
        ([2047, -1, 0], -2049),
    ];
    for (coordinates, key) in pairs {
        assert_eq!(key_join(coordinates), Ok(key));
        assert_eq!(key_split(key), Ok(coordinates));
    }
}

#[test]
fn others_are_refused() {
    assert_eq!(key_split(34_351_347_712).unwrap_err().refusal, Refusal::OutOfRange);
    assert_eq!(key_join([0, 2048, 0]).unwrap_err().refusal, Refusal::OutOfRange);
    assert_eq!(
        key_split(i64::MAX).unwrap_err().to_string(),
        "refused 9: a key or a coordinate is out of range"
    );
}

#[test]
fn a_lot_has_both_its_ends() {
    let lot = Lot::new([0, -5, 7], [3, -5, 9]).unwrap();
    assert_eq!(lot.has([3, -5, 9]), Ok(true));
    assert_eq!(lot.has([4, -5, 9]), Ok(false));
    assert_eq!(Lot::WORLD.has([-32768, 0, 32767]), Ok(true));
    assert_eq!(Lot::new([1, 0, 0], [0, 0, 0]).unwrap_err().refusal, Refusal::BadPart);
    assert_eq!(
        Lot::new([0, 0, 0], [0, 32768, 0]).unwrap_err().refusal,
        Refusal::BadPart
    );
}

#[test]
fn a_span_has_its_start_and_not_its_end() {
    let span = Span::new(0, 1_000_000).unwrap();
    assert_eq!(span.has(999_998), Ok(true));
    assert_eq!(span.has(1_000_000), Ok(false));
    assert_eq!(Span::ALL_TIME.has(u32::MAX), Ok(false));
    assert_eq!(Span::new(2, 1).unwrap_err().refusal, Refusal::BadPart);
}
