//! Pairs of large tallies to merge, and small damaged ones.

use crate::names::modded_name;
use crate::obvious;
use crate::race::{heading, run, show_growth, Race, Results, Unit};
use crate::random::Random;
use crate::tallies::{write_tally, Tally, AROUND, HEAD};
use crate::MERGE_PROGRAMS;

pub struct Pair {
    pub a: Vec<u8>,
    pub b: Vec<u8>,
}

fn bytes_of(tally: &Tally) -> Vec<u8> {
    let mut bytes = vec![0; HEAD + tally.keys().map(|name| name.len() + AROUND).sum::<usize>()];
    write_tally(tally, &mut bytes);
    bytes
}

/// Makes a name that has this number in it.
type Naming = fn(&mut Random, usize) -> Vec<u8>;

/// Two tallies of so many rows with counts up to `most`, half of the names of each in both.
fn make_pair(random: &mut Random, rows: usize, most: usize, naming: Naming) -> Pair {
    let (mut a, mut b) = (Tally::new(), Tally::new());
    for number in 0..rows / 2 * 3 {
        let name = naming(random, number);
        if number % 3 != 0 {
            a.insert(name.clone(), 1 + random.below(most) as u64);
        }
        if number % 3 != 1 {
            b.insert(name, 1 + random.below(most) as u64);
        }
    }
    let (a, b) = (bytes_of(&a), bytes_of(&b));
    Pair { a, b }
}

/// Rows of each tally, how they are called, and turns. A processor learns the branches of a merge of 1,000 rows within
/// a few turns, and its times are then better than a single merge's; 10,000 rows are too many for that.
const SIZES: [(usize, &str, [usize; 3]); 3] = [
    (10_000, "two tallies of 10,000 rows", [50, 50, 20]),
    (100_000, "two tallies of 100,000 rows", [20, 20, 10]),
    (1_000_000, "two tallies of 1,000,000 rows", [10, 10, 4]),
];

pub fn merges(results: &mut Results) {
    heading("merges, of the rows of both tallies", Unit::Row);
    let best = SIZES.map(|(rows, workload, turns)| {
        let pair = make_pair(&mut Random(0xda942042e4dd58b5), rows, 1 << 30, modded_name);
        let race = Race {
            group: "merge",
            workload,
            programs: MERGE_PROGRAMS,
            input: &pair,
            unit: Unit::Row,
            units: 2 * rows,
            room: pair.a.len() + pair.b.len(),
            spare: 0,
            turns,
        };
        (2 * rows, run(&race, results))
    });
    show_growth(Unit::Row, best[0], best[2]);
}

/// Names of all lengths, some of them none and some the start of others; a few come twice, so rows may be fewer.
fn uneven_name(random: &mut Random, number: usize) -> Vec<u8> {
    let mut name = modded_name(random, number);
    match random.below(4) {
        0 => name.truncate(random.below(10)),
        1 => name = name.repeat(1 + random.below(4)),
        _ => {}
    }
    name
}

/// The first row, with its length and count.
fn first_row(bytes: &[u8]) -> Vec<u8> {
    let name = u16::from_be_bytes([bytes[HEAD], bytes[HEAD + 1]]) as usize;
    bytes[HEAD..HEAD + name + AROUND].to_vec()
}

/// Damage to a tally, or to a rate sheet, whose rows are as long: a second and a price stand in the place of the count.
pub fn damage(random: &mut Random, bytes: &mut Vec<u8>) {
    let place = random.below(bytes.len());
    match random.below(10) {
        0 => bytes.truncate(place),
        1 => bytes.insert(place, random.below(256) as u8),
        2 => bytes.push(0),
        3 => bytes[random.below(HEAD)] ^= 1,
        // The last count becomes 0.
        4 => *bytes.last_mut().expect("there are rows") = 0,
        // The first row stands there twice.
        5 => {
            let row = first_row(bytes);
            bytes.splice(HEAD..HEAD, row);
            bytes[HEAD - 1] += 1;
        }
        _ => bytes[place] = random.below(256) as u8,
    }
}

/// Makes the first row's count so large that a sum with it just fits or just does not.
fn enlarge(random: &mut Random, bytes: &mut [u8]) {
    let end = HEAD + first_row(bytes).len();
    let count = u64::MAX - random.below(4) as u64;
    bytes[end - 8..end].copy_from_slice(&count.to_be_bytes());
}

/// A pair of small tallies, a third of them neither damaged nor enlarged, and a room, often just short or just enough.
pub fn damaged_pair(random: &mut Random) -> (Pair, usize) {
    let rows = 2 + 2 * random.below(8);
    let mut pair = make_pair(random, rows, 3, uneven_name);
    let whole = pair.a.len() + pair.b.len();
    let sum = obvious::merge(&pair, &mut vec![0; whole], &mut []).expect("whole tallies merge");
    let room = match random.below(4) {
        0 => sum - random.below(3),
        1 => random.below(sum),
        _ => sum + random.below(whole),
    };
    match random.below(6) {
        0 => damage(random, &mut pair.a),
        1 => damage(random, &mut pair.b),
        2 => enlarge(random, &mut pair.a),
        3 => enlarge(random, &mut pair.b),
        _ => {}
    }
    (pair, room)
}
