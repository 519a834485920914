//! The tuned program: counters by id, one look-up for each used id of a block.

use crate::reading::{demand, narrow_id, read_block, read_sheet, Nodes, NODES};
use crate::tallies::{write_tally, Tally};

/// Counters and marks by id, clear between two blocks, and the name rows of a block.
pub struct Counters<'a> {
    counts: Vec<u32>,
    marks: Vec<bool>,
    rows: Vec<(u16, &'a [u8])>,
}

impl<'a> Counters<'a> {
    pub fn new() -> Self {
        let (counts, marks) = (vec![0; 65536], vec![false; 65536]);
        Counters {
            counts,
            marks,
            rows: Vec::new(),
        }
    }

    /// Judges a block and hands on each name that is used, how often, and the block's timestamp.
    pub fn each_used<F>(&mut self, block: &'a [u8], used: F) -> Option<()>
    where
        F: FnMut(&'a [u8], u64, u32),
    {
        let (rows, marks) = (&mut self.rows, &mut self.marks);
        rows.clear();
        let nodes = read_block(block, |id, name| {
            rows.push((id, name));
            demand(!std::mem::replace(&mut marks[id as usize], true))
        })?;
        self.count(&nodes);
        self.gather(&nodes, used)
    }

    fn count(&mut self, nodes: &Nodes) {
        if nodes.wide {
            for pair in nodes.param0.chunks_exact(2) {
                self.counts[u16::from_be_bytes([pair[0], pair[1]]) as usize] += 1;
            }
        } else {
            for (param0, param2) in nodes.param0.iter().zip(nodes.param2) {
                self.counts[narrow_id(*param0, *param2) as usize] += 1;
            }
        }
    }

    /// Takes the counts of the mapped ids and leaves counters and marks clear for the next block.
    fn gather<F>(&mut self, nodes: &Nodes, mut used: F) -> Option<()>
    where
        F: FnMut(&'a [u8], u64, u32),
    {
        let (mut mapped, counted) = (0, nodes.counted());
        for (id, name) in &self.rows {
            let count = std::mem::replace(&mut self.counts[*id as usize], 0);
            self.marks[*id as usize] = false;
            mapped += count as usize;
            if count > 0 && counted {
                used(name, count as u64, nodes.timestamp);
            }
        }
        demand(mapped == NODES)
    }
}

fn add_count(tally: &mut Tally, name: &[u8], count: u64) {
    match tally.get_mut(name) {
        Some(sum) => *sum += count,
        None => {
            tally.insert(name.to_vec(), count);
        }
    }
}

pub fn sheet(sheet: &[u8], out: &mut [u8], _: &mut [u8]) -> Option<usize> {
    let (mut counters, mut tally) = (Counters::new(), Tally::new());
    read_sheet(sheet, |block| {
        counters.each_used(block, |name, count, _| add_count(&mut tally, name, count))
    })?;
    write_tally(&tally, out)
}

pub fn block(block: &[u8], out: &mut [u8], _: &mut [u8]) -> Option<usize> {
    let mut tally = Tally::new();
    Counters::new().each_used(block, |name, count, _| add_count(&mut tally, name, count))?;
    write_tally(&tally, out)
}
