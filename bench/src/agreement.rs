//! Runs that are not timed: on blocks, sheets, tallies and rate sheets, whole and damaged, the programs must do the
//! same.

use crate::bills::BILL;
use crate::merging::{damaged_pair, Pair};
use crate::names::world_pool;
use crate::pricing::{damaged_rates, few_rates, Priced};
use crate::race::{stop, Programs};
use crate::random::Random;
use crate::worlds::mixed_block;
use crate::writing::{make_sheet, put_record, start_sheet, write_block};
use crate::{BLOCK_PROGRAMS, MERGE_PROGRAMS, PRICE_BLOCK_PROGRAMS, PRICE_SHEET_PROGRAMS, SHEET_PROGRAMS};

/// All three refuse, or all three write the same; refused, an output stays as it was.
fn agree<I: ?Sized>(programs: &Programs<I>, input: &I, room: usize) -> bool {
    let runs = programs.map(|program| {
        let (mut out, mut spare) = (vec![7; room], vec![0; room]);
        (program(input, &mut out, &mut spare), out)
    });
    let refused = runs[0].0.is_none();
    if runs[0] != runs[1] || runs[0] != runs[2] {
        stop("the programs differ on an input of the agreement runs");
    }
    if refused && runs[0].1 != vec![7; room] {
        stop("a refusal changed the output");
    }
    refused
}

/// Most damage goes to the ends, where the rows and counts stand.
fn damage(random: &mut Random, bytes: &mut Vec<u8>) {
    let length = bytes.len();
    let place = match random.below(3) {
        0 => random.below(length),
        1 => random.below(100),
        _ => length - 1 - random.below(400),
    };
    match random.below(8) {
        0 => bytes.truncate(place),
        1 => bytes.insert(place, 0),
        _ => bytes[place] = random.below(256) as u8,
    }
}

fn damaged_runs(random: &mut Random, count: usize) -> usize {
    let pool = world_pool();
    let mut refused = 0;
    for _ in 0..count {
        let plain = mixed_block(random, &pool);
        let mut block = write_block(random, &plain);
        let mut sheet = start_sheet(1);
        put_record(&mut sheet, -1, &block);
        damage(random, &mut block);
        damage(random, &mut sheet);
        refused += agree(&BLOCK_PROGRAMS, &block[..], 8192) as usize;
        refused += agree(&SHEET_PROGRAMS, &sheet[..], 8192) as usize;
    }
    refused
}

pub fn on_blocks() {
    let mut random = Random(88172645463325252);
    let pool = world_pool();
    let sheet = make_sheet(&mut random, 100, |random, _| mixed_block(random, &pool));
    if agree(&SHEET_PROGRAMS, &sheet[..], 8192) {
        stop("the mixed sheet was refused");
    }
    let refused = damaged_runs(&mut random, 2000);
    println!(
        "agreement: a sheet of 100 blocks of versions 22 to 29 and both list forms, and 4000 damaged blocks and sheets"
    );
    println!("({} refused, by all three alike): results are the same", refused);
}

/// Small tallies: damaged ones, counts that add up to too much, and outputs that are a little too short.
pub fn on_merges() {
    let mut random = Random(0x853c49e6748fea9b);
    let mut refused = 0;
    let count = 6000;
    for _ in 0..count {
        let (pair, room) = damaged_pair(&mut random);
        refused += agree::<Pair>(&MERGE_PROGRAMS, &pair, room) as usize;
    }
    println!(
        "agreement: {} merges of damaged tallies, too large counts and short outputs",
        count
    );
    println!("({} refused, by all three alike): results are the same", refused);
}

/// Blocks and sheets of two blocks, some damaged, by rates of which half are.
fn damaged_prices(random: &mut Random, count: usize) -> usize {
    let pool = world_pool();
    let mut refused = 0;
    for _ in 0..count {
        let plain = mixed_block(random, &pool);
        let mut block = write_block(random, &plain);
        let mut sheet = make_sheet(random, 2, |random, _| mixed_block(random, &pool));
        if random.below(2) == 0 {
            damage(random, &mut block);
            damage(random, &mut sheet);
        }
        let mut priced = Priced {
            bytes: block,
            rates: damaged_rates(random),
        };
        refused += agree(&PRICE_BLOCK_PROGRAMS, &priced, BILL) as usize;
        priced.bytes = sheet;
        refused += agree(&PRICE_SHEET_PROGRAMS, &priced, BILL) as usize;
    }
    refused
}

pub fn on_prices() {
    let mut random = Random(0x9216d5d98979fb1b);
    let pool = world_pool();
    let bytes = make_sheet(&mut random, 100, |random, _| mixed_block(random, &pool));
    let rates = few_rates(&mut random);
    if agree(&PRICE_SHEET_PROGRAMS, &Priced { bytes, rates }, BILL) {
        stop("the mixed sheet was refused a price");
    }
    let refused = damaged_prices(&mut random, 2000);
    println!("agreement: prices of a sheet of 100 blocks, and of 4000 blocks and sheets, damaged or by damaged rates");
    println!("({} refused, by all three alike): results are the same", refused);
}
