//! Demand 3 run at random against the library, as 01, "Cuts and merges", says it; and the cut law of prices, 02,
//! item 4.

use crate::compare::Compare;
use crate::make::rates::{self, Aim};
use crate::make::{blocks, damage, lots, sheets, tallies};
use crate::model::tallies::{add_to, bytes_of, length, parse, Counts};
use anowhetele::raw::{Lot, Span};

/// A list of merges from two or more well-formed tallies, up to the end or to some step on the way.
pub fn merges(compare: &mut Compare) {
    let start = start_tallies(compare);
    let sum = sum_of(&start);
    let room = match compare.random.below(3) {
        0 => length(&sum),
        1 => length(&sum).saturating_sub(1 + compare.random.below(40)),
        _ => length(&sum) + compare.random.below(100),
    };
    let steps = if compare.random.one_in(4) { compare.random.below(start.len()) } else { 4 * start.len() };
    let (left, refused) = merge_all(compare, start.clone(), room, steps);
    let fits = fits(&sum, room);
    let mut broken = Vec::new();
    if sum_of(&left) != sum {
        broken.push("what is left does not add up to the start");
    }
    if fits && refused {
        broken.push("a merge was refused, and the sum fits");
    }
    if fits && left.len() == 1 && left[0] != bytes_of(&sum) {
        broken.push("the one left has not the sum's bytes");
    }
    if !fits && left.len() == 1 {
        broken.push("one is left, and the sum does not fit");
    }
    note(compare, "law of merges", &broken, start);
}

/// Two to eight tallies; some equal, some empty, in some lists with counts whose sums are too large.
fn start_tallies(compare: &mut Compare) -> Vec<Vec<u8>> {
    let random = &mut compare.random;
    let count = if random.one_in(3) { tallies::count } else { tallies::small_count };
    let mut start: Vec<Vec<u8>> = (0..2 + random.below(6)).map(|_| tallies::tally(random, count).bytes).collect();
    if random.one_in(2) {
        let again = start[random.below(start.len())].clone();
        start.push(again);
    }
    start
}

fn sum_of(list: &[Vec<u8>]) -> Counts {
    let mut sum = Counts::new();
    for tally in list {
        add_to(&mut sum, &parse(tally).unwrap_or_default());
    }
    sum
}

/// "It fits when no count is above 2^64-1 ... and, written as a tally, it is no longer than the room."
fn fits(sum: &Counts, room: usize) -> bool {
    sum.values().all(|&count| count <= u128::from(u64::MAX)) && length(sum) <= room
}

/// Merges two of those left at a time, in any order and grouping. Whether one was refused comes with what is left.
fn merge_all(compare: &mut Compare, start: Vec<Vec<u8>>, room: usize, steps: usize) -> (Vec<Vec<u8>>, bool) {
    let mut left = start;
    let mut refused = false;
    for _ in 0..steps {
        if left.len() < 2 {
            break;
        }
        compare.random.shuffle(&mut left);
        let (second, first) = (left.pop().unwrap_or_default(), left.pop().unwrap_or_default());
        let (answer, result) = compare.tally_merge(&first, &second, room);
        if answer.number == 0 {
            left.push(result);
        } else {
            refused = true;
            left.extend([first, second]);
        }
    }
    (left, refused)
}

fn note(compare: &mut Compare, law: &str, broken: &[&str], inputs: Vec<Vec<u8>>) {
    if !broken.is_empty() {
        let inputs = inputs.into_iter().map(|bytes| ("input", bytes)).collect();
        compare.note(format!("{law}: {}", broken.join("; ")), inputs);
    }
}

/// A lot with a span.
type PartOfWorld = (Lot, Span);

/// What is tallied or priced: a block at a key, or a sheet, whose tally has spares of one length.
enum Source {
    Block(i64, Vec<u8>),
    Sheet(Vec<u8>, usize),
}

impl Source {
    /// The tally, or nothing after a refusal.
    fn tally(&self, compare: &mut Compare, part: PartOfWorld, room: usize) -> Option<Vec<u8>> {
        let (answer, result) = match self {
            Source::Block(key, block) => compare.tally_block(*key, block, part, room),
            Source::Sheet(sheet, spare) => compare.tally_sheet(sheet, part, room, *spare),
        };
        (answer.number == 0).then_some(result)
    }

    /// The total and the number of unpriced nodes, or nothing after a refusal.
    fn price(&self, compare: &mut Compare, part: PartOfWorld, rates: &[u8]) -> Option<[u128; 2]> {
        let bill = match self {
            Source::Block(key, block) => compare.price_block(*key, block, rates, part),
            Source::Sheet(sheet, _) => compare.price_sheet(sheet, rates, part),
        };
        (bill.answer.number == 0).then_some([bill.total.into(), bill.unpriced.into()])
    }

    fn bytes(&self) -> &[u8] {
        match self {
            Source::Block(_, bytes) | Source::Sheet(bytes, _) => bytes,
        }
    }
}

/// A source with coordinates, a second and names that lie in it.
struct Made {
    source: Source,
    near: [i32; 3],
    second: u32,
    names: Vec<Vec<u8>>,
}

/// A part of the world near a source, good or bad.
fn whole(compare: &mut Compare, made: &Made) -> PartOfWorld {
    let random = &mut compare.random;
    let mut whole = (lots::good_lot(random, made.near), lots::good_span(random, made.second));
    if random.one_in(8) {
        whole.0 = lots::bad_lot(random, whole.0);
    } else if random.one_in(16) {
        whole.1 = lots::span(random, made.second);
    }
    whole
}

/// A list of cuts of one part, over a block or a sheet, good or bad.
pub fn cuts(compare: &mut Compare) {
    let made = source(compare);
    let whole = whole(compare, &made);
    let parts = cut(compare, whole, made.near, made.second);
    let source = made.source;
    let large = source.tally(compare, whole, 30_000);
    let room = match (large, compare.random.below(4)) {
        (Some(tally), 0) => tally.len(),
        (Some(tally), 1) => tally.len().saturating_sub(1 + compare.random.below(40)),
        _ => 30_000,
    };
    compare_cuts(compare, &source, whole, &parts, room);
}

fn compare_cuts(compare: &mut Compare, source: &Source, whole: PartOfWorld, parts: &[PartOfWorld], room: usize) {
    let whole_tally = source.tally(compare, whole, room);
    let tallied: Vec<Vec<u8>> = parts.iter().filter_map(|&part| source.tally(compare, part, room)).collect();
    let parts_fit = tallied.len() == parts.len() && fits(&sum_of(&tallied), room);
    let mut broken = Vec::new();
    if whole_tally.is_some() != parts_fit {
        broken.push("the whole is not tallied exactly when the parts are and their sum fits");
    }
    if let (Some(whole_tally), true) = (whole_tally, parts_fit) {
        let (left, _) = merge_all(compare, tallied, room, parts.len());
        if left != [whole_tally] {
            broken.push("the parts, merged, are not the whole");
        }
    }
    note(compare, "law of cuts", &broken, vec![source.bytes().to_vec()]);
}

/// "The cut law of demand 3 holds for both: where the whole is priced, so are the parts, and they add." And the other
/// way round: where all parts are priced and their totals add up to at most 2^64-1, so is the whole.
pub fn price_cuts(compare: &mut Compare) {
    let made = source(compare);
    let whole = whole(compare, &made);
    let rates = rates::rates(&mut compare.random, &Aim { names: &made.names, second: made.second });
    let rates = if compare.random.one_in(12) { rates::damaged(&mut compare.random, &rates) } else { rates.bytes };
    let parts = cut(compare, whole, made.near, made.second);
    let whole_bill = made.source.price(compare, whole, &rates);
    let bills: Vec<[u128; 2]> = parts.iter().filter_map(|&part| made.source.price(compare, part, &rates)).collect();
    let sum = bills.iter().fold([0; 2], |sum, bill| [sum[0] + bill[0], sum[1] + bill[1]]);
    let parts_fit = bills.len() == parts.len() && sum[0] <= u128::from(u64::MAX);
    let mut broken = Vec::new();
    if whole_bill.is_some() != parts_fit {
        broken.push("the whole is not priced exactly when the parts are and their sum fits");
    }
    if parts_fit && whole_bill.is_some_and(|bill| bill != sum) {
        broken.push("the parts do not add up to the whole");
    }
    note(compare, "law of prices", &broken, vec![made.source.bytes().to_vec(), rates]);
}

/// A block or a sheet, sometimes damaged.
fn source(compare: &mut Compare) -> Made {
    let random = &mut compare.random;
    let bad = random.one_in(6);
    if random.one_in(3) {
        let sheet = sheets::sheet(random);
        let bytes = if bad { sheets::damaged(random, &sheet) } else { sheet.bytes.clone() };
        let source = Source::Sheet(bytes, 30_000 + random.below(3));
        return Made { source, near: sheet.near, second: sheet.second, names: sheet.names };
    }
    let made = blocks::block(random);
    let bytes = if bad { damage::damaged(random, &made) } else { made.bytes.clone() };
    let near = lots::block_coordinates(random);
    let key = if random.one_in(12) { lots::any_key(random) } else { lots::key_of(near) };
    Made { source: Source::Block(key, bytes), near, second: made.head.timestamp, names: made.names }
}

/// "Each cut puts two parts in the place of one." None, or some; where a lot has no two layers, none comes of it.
fn cut(compare: &mut Compare, whole: PartOfWorld, near: [i32; 3], second: u32) -> Vec<PartOfWorld> {
    let mut parts = vec![whole];
    for _ in 0..compare.random.below(6) {
        let which = compare.random.below(parts.len());
        let (lot, span) = parts[which];
        let halves = match compare.random.below(4) {
            3 => cut_span(compare, span, second).map(|(one, other)| ((lot, one), (lot, other))),
            axis => cut_lot(compare, lot, axis, near[axis]).map(|(one, other)| ((one, span), (other, span))),
        };
        if let Some((one, other)) = halves {
            parts[which] = one;
            parts.push(other);
        }
    }
    parts
}

/// "Between c and c+1, both in it": at an end, near the block or anywhere.
fn cut_lot(compare: &mut Compare, lot: Lot, axis: usize, block: i32) -> Option<(Lot, Lot)> {
    let (least, greatest) = [(lot.x0, lot.x1), (lot.y0, lot.y1), (lot.z0, lot.z1)][axis];
    if least >= greatest {
        return None;
    }
    let random = &mut compare.random;
    let place = match random.below(6) {
        0 => least,
        1 => greatest - 1,
        2 => random.between(least.into(), i64::from(greatest) - 1) as i32,
        _ => (16 * block + random.between(-2, 17) as i32).clamp(least, greatest - 1),
    };
    let (mut one, mut other) = (lot, lot);
    match axis {
        0 => (one.x1, other.x0) = (place, place + 1),
        1 => (one.y1, other.y0) = (place, place + 1),
        _ => (one.z1, other.z0) = (place, place + 1),
    }
    Some((one, other))
}

/// "At a second s, not below from and not above until: from to s, and s to until."
fn cut_span(compare: &mut Compare, span: Span, second: u32) -> Option<(Span, Span)> {
    if span.from > span.until {
        return None;
    }
    let random = &mut compare.random;
    let place = match random.below(5) {
        0 => span.from,
        1 => span.until,
        2 => second.saturating_add(1),
        3 => random.between(span.from.into(), span.until.into()) as u32,
        _ => second,
    };
    let place = place.clamp(span.from, span.until);
    Some((Span { from: span.from, until: place }, Span { from: place, until: span.until }))
}
