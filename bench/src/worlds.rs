//! Sheets like those of a world, and of a server with very many names.

use crate::names::{modded_pool, world_pool};
use crate::race::{heading, run, show_growth, Race, Results, Unit};
use crate::random::Random;
use crate::reading::NODES;
use crate::writing::{make_sheet, Plain};
use crate::SHEET_PROGRAMS;
use anowhetele::{LIST_COUNTED, LIST_ZERO};

/// `count` places in a pool of so many names, the four layers first.
fn pick_names(random: &mut Random, pool: usize, count: usize) -> Vec<usize> {
    let mut picked = vec![0, 1, 2, 3];
    while picked.len() < count {
        let name = random.below(pool);
        if !picked.contains(&name) {
            picked.push(name);
        }
    }
    picked
}

/// Layers of ground under air, or all stone, or all air; each node is a place in the pool.
fn layers(random: &mut Random) -> Vec<usize> {
    let ground = match random.below(4) {
        0 => 99,
        1 => -99,
        _ => 3 + random.below(11) as i32,
    };
    let (a, b) = (random.below(4), random.below(4));
    let layer = |node: usize| {
        let slope = ((node % 16 * a + node / 256 * b) / 24) as i32;
        match ground + slope - (node / 16 % 16) as i32 {
            depth if depth < 0 => 3,
            0 => 2,
            1 | 2 => 1,
            _ => 0,
        }
    };
    (0..NODES).map(layer).collect()
}

fn blob(random: &mut Random, nodes: &mut [usize], name: usize) {
    let (centre, radius) = (random.below(NODES) as i32, random.below(4) as i32);
    let (x, y, z) = (centre % 16, centre / 16 % 16, centre / 256);
    let reach = |c: i32| (c - radius).max(0)..(c + radius).min(15) + 1;
    for k in reach(z) {
        for j in reach(y) {
            for i in reach(x) {
                if (i - x).pow(2) + (j - y).pow(2) + (k - z).pow(2) <= radius * radius {
                    nodes[(256 * k + 16 * j + i) as usize] = name;
                }
            }
        }
    }
}

/// Numbers the names as a server does, in order of appearance; picked names left over are mapped, unused.
fn number(nodes: &[usize], picked: &[usize]) -> (Vec<u16>, Vec<usize>) {
    let mut order: Vec<usize> = Vec::new();
    let mut ids = Vec::new();
    for name in nodes {
        let id = order.iter().position(|seen| seen == name).unwrap_or(order.len());
        if id == order.len() {
            order.push(*name);
        }
        ids.push(id as u16);
    }
    for name in picked {
        if !order.contains(name) {
            order.push(*name);
        }
    }
    (ids, order)
}

/// `count` names of a pool, most of them in blobs in the ground and the air.
fn block_from(random: &mut Random, pool: &[Vec<u8>], count: usize) -> Plain {
    let picked = pick_names(random, pool.len(), count);
    let mut nodes = layers(random);
    for name in &picked {
        blob(random, &mut nodes, *name);
    }
    let unused = if random.below(4) == 0 { random.below(4) } else { 0 };
    let mapped = [&picked[..], &pick_names(random, pool.len(), 4 + unused)[4..]].concat();
    let (ids, order) = number(&nodes, &mapped);
    let names = order
        .iter()
        .enumerate()
        .map(|(id, name)| (id as u16, pool[*name].clone()))
        .collect();
    Plain::without_rows(random.below(u32::MAX as usize) as u32, names, ids)
}

fn world_block(random: &mut Random, pool: &[Vec<u8>]) -> Plain {
    let count = 4 + random.below(17);
    block_from(random, pool, count)
}

/// A block of any version with rows in its lists or a metadata list of either form, high ids in the old ones, and now
/// and then no known time.
pub fn mixed_block(random: &mut Random, pool: &[Vec<u8>]) -> Plain {
    let version = 22 + random.below(8) as u8;
    let mut plain = world_block(random, pool);
    plain.version = version;
    let high = |id: u16| if id.is_multiple_of(2) { id } else { 2048 + 37 * id };
    for id in plain.ids.iter_mut().chain(plain.names.iter_mut().map(|row| &mut row.0)) {
        *id = high(*id);
    }
    plain.rows = random.below(4);
    plain.list_form = [LIST_COUNTED, LIST_ZERO][random.below(2)];
    if random.below(8) == 0 {
        plain.timestamp = u32::MAX;
    }
    plain
}

/// Blocks, seed and turns of each world-like sheet; with a seed for each, another sheet leaves these as they are.
pub const SHEETS: [(usize, u64, [usize; 3]); 5] = [
    (1, 0xfa1b162d07104f2a, [200, 200, 50]),
    (10, 0x2545f4914f6cdd1d, [200, 200, 50]),
    (100, 0x12aceb54422c43bb, [50, 50, 20]),
    (1_000, 0x9e3779b97f4a7c15, [20, 20, 5]),
    (10_000, 0x838dd7bfe8dad7f8, [10, 10, 3]),
];

pub fn world_sheets(results: &mut Results) {
    heading("sheets of version 29, like a world", Unit::Block);
    let best = SHEETS.map(|(blocks, seed, turns)| (blocks, world_sheet(results, blocks, seed, turns)));
    show_growth(Unit::Block, best[2], best[4]);
}

pub fn make_world(blocks: usize, seed: u64) -> Vec<u8> {
    let pool = world_pool();
    make_sheet(&mut Random(seed), blocks, |random, _| world_block(random, &pool))
}

fn world_sheet(results: &mut Results, blocks: usize, seed: u64, turns: [usize; 3]) -> [f64; 3] {
    let bytes = make_world(blocks, seed);
    let race = Race {
        group: "world sheet",
        workload: "world",
        programs: SHEET_PROGRAMS,
        input: &bytes[..],
        unit: Unit::Block,
        units: blocks,
        room: 8192,
        spare: 8192,
        turns,
    };
    run(&race, results)
}

/// Some fifteen names a block: after a few hundred blocks most of them stand in the tally already.
fn busy_block(random: &mut Random, pool: &[Vec<u8>]) -> Plain {
    let count = 11 + random.below(9);
    block_from(random, pool, count)
}

pub fn busy_sheet(results: &mut Results) {
    heading("sheet of a busy server, 5,000 names", Unit::Block);
    let mut random = Random(0xd1342543de82ef95);
    let (blocks, room) = (1000, 1 << 18);
    let pool = modded_pool(&mut random, 5000);
    let bytes = make_sheet(&mut random, blocks, |random, _| busy_block(random, &pool));
    let race = Race {
        group: "busy sheet",
        workload: "15 of 5,000 names in each block",
        programs: SHEET_PROGRAMS,
        input: &bytes[..],
        unit: Unit::Block,
        units: blocks,
        room,
        spare: room,
        turns: [20, 20, 5],
    };
    run(&race, results);
}
