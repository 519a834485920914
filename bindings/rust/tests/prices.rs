//! Rate sheets, and the prices of blocks and sheets.
mod common;

use anowhetele::*;
use common::{air, sheet, PARAM0};

fn rate(name: &[u8], from: u32, price: u32) -> Rate<'_> {
    Rate { name, from, price }
}

/// Air at 1500 thousandths, and at 2000 from second 1,000,000 on.
fn air_rates() -> Vec<u8> {
    rate_sheet([rate(b"air", 0, 1500), rate(b"air", 1_000_000, 2000)]).unwrap()
}

fn bill(total: u64, unpriced: u64) -> Bill {
    Bill { total, unpriced }
}

fn world_bill(block: &[u8], rates: &[u8]) -> Bill {
    price_block(-1, block, rates, Lot::WORLD, Span::ALL_TIME).unwrap()
}

#[test]
fn rates_are_put_in_order() {
    let rates = [
        rate(b"b", 0, 1),
        rate(b"a", 10, 2),
        rate(b"", 7, u32::MAX),
        rate(b"a", 9, 3),
        rate(b"ab", 0, 0),
        rate(b"\xff", u32::MAX, 4),
    ];
    let bytes = rate_sheet(rates).unwrap();
    assert_eq!(
        bytes[..22],
        *b"RTE\x00\x01\x00\x00\x00\x06\x00\x00\x00\x00\x00\x07\xff\xff\xff\xff\x00\x01a"
    );
    check_rates(&bytes).unwrap();
    let rows: Vec<Rate> = rate_rows(&bytes).unwrap().collect();
    assert_eq!(rows, [2, 3, 1, 4, 0, 5].map(|place| rates[place]));
    let longest = [7; 65_535];
    check_rates(&rate_sheet([rate(&longest, 5, 6)]).unwrap()).unwrap();
    assert_eq!(rate_sheet([]).unwrap(), b"RTE\x00\x01\x00\x00\x00\x00");
}

#[test]
fn some_rates_make_no_rate_sheet() {
    let twice = rate_sheet([rate(b"a\n", 9, 1), rate(b"b", 9, 1), rate(b"a\n", 9, 2)]).unwrap_err();
    assert_eq!(twice.to_string(), r"two rates of a\n from second 9 on");
    let name = b"a\n".to_vec();
    assert_eq!(twice, BadRates::Twice { name, from: 9 });
    let long = rate_sheet([rate(&[7; 65_536], 0, 0)]).unwrap_err();
    assert_eq!(long, BadRates::NameTooLong { length: 65_536 });
}

#[test]
fn others_are_refused() {
    let good = rate_sheet([rate(b"a", 9, 1), rate(b"a", 10, 1)]).unwrap();
    let (mut falling, mut longer) = (good.clone(), good.clone());
    // a rate of this name has eleven bytes
    falling[9..].rotate_left(11);
    longer.push(0);
    for bytes in [&falling, &longer, &good[1..], &good[..8], &good[..30]] {
        let refused = check_rates(bytes).unwrap_err();
        assert_eq!(refused.to_string(), "refused 40: the rate sheet is malformed");
        assert!(rate_rows(bytes).is_err());
    }
}

#[test]
fn a_block_s_time_decides() {
    let rates = air_rates();
    let cases = [(999_998, 6_144_000), (999_999, 6_144_000), (1_000_000, 8_192_000)];
    for (timestamp, total) in cases {
        assert_eq!(world_bill(&air(timestamp), &rates), bill(total, 0));
    }
    // 0xffffffff, which stands for no time, lies in no span
    assert_eq!(world_bill(&air(u32::MAX), &rates), bill(0, 0));
}

#[test]
fn a_price_of_none_is_a_price() {
    let free = rate_sheet([rate(b"air", 0, 0)]).unwrap();
    assert_eq!(world_bill(&air(5), &free), bill(0, 0));
    let later = rate_sheet([rate(b"air", 6, 1)]).unwrap();
    let other = rate_sheet([rate(b"ai", 0, 1), rate(b"air2", 0, 1)]).unwrap();
    for rates in [later, other, rate_sheet([]).unwrap()] {
        assert_eq!(world_bill(&air(5), &rates), bill(0, 4096));
    }
}

#[test]
fn parts_add_up() {
    let block = air(5);
    let bytes = sheet(&[(-1, &block), (0, &air(1_000_000))]);
    let rates = rate_sheet([rate(b"air", 6, u32::MAX)]).unwrap();
    let price = |x0, x1, from, until| {
        let lot = Lot { x0, x1, ..Lot::WORLD };
        price_sheet(&bytes, &rates, lot, Span { from, until }).unwrap()
    };
    let total = 4096 * u64::from(u32::MAX);
    assert_eq!(price(-16, 15, 0, u32::MAX), bill(total, 4096));
    let half = bill(total / 2, 0);
    assert_eq!((price(0, 7, 0, u32::MAX), price(8, 15, 0, u32::MAX)), (half, half));
    assert_eq!(price(-16, 15, 0, 6), bill(0, 4096));
    assert_eq!(price(-16, 15, 6, u32::MAX), bill(total, 0));
}

#[test]
fn refusals_have_their_order() {
    let (good, rates) = (air(5), air_rates());
    let mut bad = air(5);
    bad[PARAM0 + 1] = 9;
    let turned = Span { from: 2, until: 1 };
    let block = |key, block: &[u8], rates: &[u8], span| {
        let refused = price_block(key, block, rates, Lot::WORLD, span).unwrap_err();
        refused.to_string()
    };
    assert!(block(i64::MAX, &bad, b"", turned).starts_with("refused 10:"));
    assert!(block(i64::MAX, &bad, b"", Span::ALL_TIME).starts_with("refused 40:"));
    assert!(block(i64::MAX, &bad, &rates, Span::ALL_TIME).starts_with("refused 9:"));
    assert!(block(0, &bad, &rates, Span::ALL_TIME).starts_with("refused 8 at offset 20:"));
    let of_sheet = |bytes: &[u8], rates: &[u8]| {
        let refused = price_sheet(bytes, rates, Lot::WORLD, Span::ALL_TIME).unwrap_err();
        refused.to_string()
    };
    let bytes = sheet(&[(-1, &good), (5, &bad)]);
    assert!(of_sheet(&bytes[1..], b"").starts_with("refused 40 at record 0:"));
    assert!(of_sheet(&bytes[1..], &rates).starts_with("refused 15 at record 0:"));
    assert!(of_sheet(&bytes, &rates).starts_with("refused 8 at offset 20 of record 1:"));
}

#[test]
fn the_program_s_example() {
    let bytes = include_bytes!("../../../crates/sheetcount/stdin");
    let priced = price_sheet(bytes, &air_rates(), Lot::WORLD, Span::ALL_TIME);
    assert_eq!(priced, Ok(bill(6_144_000, 0)));
}
