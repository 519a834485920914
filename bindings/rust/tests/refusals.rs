//! The refusals are those of the table.
use anowhetele::Refusal;
use std::error::Error;

#[test]
fn every_number_of_the_table_has_a_refusal() {
    let table = include_str!("../../numbers.txt");
    let rows = table.lines().filter(|line| !line.starts_with('#')).skip(1);
    let mut refusals = Refusal::all();
    for row in rows {
        let mut words = row.split_whitespace();
        let number = words.next().unwrap().parse().unwrap();
        let has_offset = words.nth(1) == Some("at");
        let words = words.collect::<Vec<_>>().join(" ");
        let refusal = refusals.next().unwrap();
        assert_eq!(
            (refusal.number(), refusal.has_offset(), refusal.words()),
            (number, has_offset, &words[..])
        );
        assert_eq!(Refusal::from_number(number), Some(refusal));
    }
    assert_eq!(refusals.next(), None);
    assert_eq!(Refusal::from_number(0), None);
}

#[test]
fn a_refusal_is_an_error() {
    let error: Box<dyn Error + Send + Sync> = Box::new(Refusal::NoSuch);
    assert_eq!(error.to_string(), "refused 16: there is no such row or node");
}
