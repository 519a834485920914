//! Blocks and sheets made to be slow to tally.

use crate::race::{heading, run, Race, Results, Unit};
use crate::random::Random;
use crate::reading::NODES;
use crate::writing::{make_sheet, write_block, Plain};
use crate::{BLOCK_PROGRAMS, SHEET_PROGRAMS};

pub fn hostile_name(number: usize) -> Vec<u8> {
    format!("hostile:{:08x}", number as u32).into_bytes()
}

fn hostile_block(random: &mut Random, names: Vec<(u16, Vec<u8>)>, ids: Vec<u16>) -> Vec<u8> {
    write_block(random, &Plain::without_rows(1, names, ids))
}

/// `count` names falling, given to the 4,096 ids in rounds.
pub fn falling(random: &mut Random, count: usize) -> Vec<u8> {
    let names = (0..NODES)
        .map(|row| (row as u16, hostile_name(count - row % count)))
        .collect();
    hostile_block(random, names, (0..NODES as u16).collect())
}

/// As many mappings as a block can hold, ids and names out of order, every sixteenth used.
fn crowded(random: &mut Random) -> Vec<u8> {
    let id = |row: usize| (row * 40503 % 65536) as u16;
    let names = (0..65535).map(|row| (id(row), hostile_name(65535 - row))).collect();
    hostile_block(random, names, (0..NODES).map(|node| id(16 * node)).collect())
}

/// Forty names that no other block has, spread over the whole tally by an odd factor.
fn new_names(place: usize) -> Plain {
    let name = |row: usize| hostile_name((40 * place + row).wrapping_mul(2654435761));
    let names = (0..40).map(|row| (row as u16, name(row))).collect();
    let ids = (0..NODES).map(|node| (node % 40) as u16).collect();
    Plain::without_rows(1, names, ids)
}

pub fn hostile_blocks(results: &mut Results) {
    heading("hostile blocks, each tallied alone", Unit::Block);
    let mut random = Random(0xbf5d51a9c851f95f);
    let blocks = [
        ("4,096 names, falling", falling(&mut random, NODES)),
        ("2,048 names, falling, two ids each", falling(&mut random, NODES / 2)),
        ("65,535 mappings, 4,096 used", crowded(&mut random)),
    ];
    for (workload, bytes) in &blocks {
        let race = Race {
            group: "hostile block",
            workload,
            programs: BLOCK_PROGRAMS,
            input: &bytes[..],
            unit: Unit::Block,
            units: 1,
            room: 131_072,
            spare: 131_072,
            turns: [50, 50, 20],
        };
        run(&race, results);
    }
}

pub fn hostile_sheet(results: &mut Results) {
    heading("hostile sheet", Unit::Block);
    let (blocks, room) = (1000, 1 << 20);
    let bytes = make_sheet(&mut Random(0xae338814c6e1e5cb), blocks, |_, place| new_names(place));
    let race = Race {
        group: "hostile sheet",
        workload: "40 new names in each block",
        programs: SHEET_PROGRAMS,
        input: &bytes[..],
        unit: Unit::Block,
        units: blocks,
        room,
        spare: room,
        turns: [10, 10, 3],
    };
    run(&race, results);
}
