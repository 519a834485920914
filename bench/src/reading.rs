//! Reading and checking blocks and sheets, shared by the two Rust programs.

use std::collections::HashSet;

pub const NODES: usize = 4096;

pub struct Reader<'a> {
    pub left: &'a [u8],
}

impl<'a> Reader<'a> {
    pub fn take(&mut self, count: usize) -> Option<&'a [u8]> {
        if count > self.left.len() {
            return None;
        }
        let (part, left) = self.left.split_at(count);
        self.left = left;
        Some(part)
    }

    pub fn u8(&mut self) -> Option<u8> {
        Some(self.take(1)?[0])
    }

    pub fn u16(&mut self) -> Option<u16> {
        let b = self.take(2)?;
        Some(u16::from_be_bytes([b[0], b[1]]))
    }

    pub fn u32(&mut self) -> Option<u32> {
        Some((self.u16()? as u32) << 16 | self.u16()? as u32)
    }

    pub fn u64(&mut self) -> Option<u64> {
        Some((self.u32()? as u64) << 32 | self.u32()? as u64)
    }

    fn fixed(&mut self, value: u8) -> Option<()> {
        demand(self.u8()? == value)
    }

    fn position(&mut self, seen: &mut HashSet<u16>) -> Option<()> {
        let position = self.u16()?;
        demand((position as usize) < NODES && seen.insert(position))
    }
}

pub fn demand(holds: bool) -> Option<()> {
    holds.then_some(())
}

pub struct Nodes<'a> {
    pub timestamp: u32,
    pub wide: bool,
    pub param0: &'a [u8],
    pub param2: &'a [u8],
}

impl Nodes<'_> {
    pub fn id(&self, node: usize) -> u16 {
        if self.wide {
            return u16::from_be_bytes([self.param0[2 * node], self.param0[2 * node + 1]]);
        }
        narrow_id(self.param0[node], self.param2[node])
    }

    pub fn counted(&self) -> bool {
        self.timestamp < u32::MAX
    }
}

pub fn narrow_id(param0: u8, param2: u8) -> u16 {
    if param0 < 128 {
        param0 as u16
    } else {
        16 * param0 as u16 + param2 as u16 / 16
    }
}

/// Reads a whole block and hands each name row to `row`, which refuses an id that came before.
pub fn read_block<'a, F>(block: &'a [u8], mut row: F) -> Option<Nodes<'a>>
where
    F: FnMut(u16, &'a [u8]) -> Option<()>,
{
    let mut r = Reader { left: block };
    let version = r.u8()?;
    demand((22..=29).contains(&version))?;
    r.take(if version >= 27 { 3 } else { 1 })?;
    let mut timestamp = 0;
    if version >= 29 {
        timestamp = read_names(&mut r, &mut row)?;
    }
    let wide = version >= 24;
    r.fixed(if wide { 2 } else { 1 })?;
    r.fixed(2)?;
    let param0 = r.take(if wide { 2 * NODES } else { NODES })?;
    r.take(NODES)?;
    let param2 = r.take(NODES)?;
    read_metadata(&mut r, version)?;
    read_objects(&mut r)?;
    if version < 29 {
        timestamp = read_names(&mut r, &mut row)?;
    }
    if version >= 25 {
        r.fixed(10)?;
        read_timers(&mut r)?;
    }
    demand(r.left.is_empty())?;
    Some(Nodes {
        timestamp,
        wide,
        param0,
        param2,
    })
}

fn read_names<'a, F>(r: &mut Reader<'a>, row: &mut F) -> Option<u32>
where
    F: FnMut(u16, &'a [u8]) -> Option<()>,
{
    let timestamp = r.u32()?;
    r.fixed(0)?;
    for _ in 0..r.u16()? {
        let id = r.u16()?;
        let length = r.u16()? as usize;
        row(id, r.take(length)?)?;
    }
    Some(timestamp)
}

fn read_metadata(r: &mut Reader, version: u8) -> Option<()> {
    if version == 22 {
        return read_old_metadata(r);
    }
    // the list version: 0 is a list of no rows, with no count
    match (r.u8()?, version) {
        (0, _) => {}
        (1, ..=27) | (2, 28..) => read_metadata_rows(r, version)?,
        _ => return None,
    }
    match version {
        23 => r.fixed(0),
        24 => match r.u8()? {
            0 => Some(()),
            1 => read_timers(r),
            _ => None,
        },
        _ => Some(()),
    }
}

fn read_metadata_rows(r: &mut Reader, version: u8) -> Option<()> {
    let mut seen = HashSet::new();
    for _ in 0..r.u16()? {
        r.position(&mut seen)?;
        for _ in 0..r.u32()? {
            read_variable(r, version)?;
        }
        read_inventory(r)?;
    }
    Some(())
}

fn read_old_metadata(r: &mut Reader) -> Option<()> {
    demand(r.u16()? == 1)?;
    let mut seen = HashSet::new();
    for _ in 0..r.u16()? {
        r.position(&mut seen)?;
        r.u16()?;
        let size = r.u16()? as usize;
        r.take(size)?;
    }
    Some(())
}

fn read_variable(r: &mut Reader, version: u8) -> Option<()> {
    let key = r.u16()? as usize;
    r.take(key)?;
    let value = r.u32()? as usize;
    r.take(value)?;
    if version >= 28 {
        demand(r.u8()? < 2)?;
    }
    Some(())
}

fn read_inventory(r: &mut Reader) -> Option<()> {
    loop {
        let end = r.left.iter().position(|b| *b == b'\n')?;
        if r.take(end + 1)? == b"EndInventory\n" {
            return Some(());
        }
    }
}

fn read_objects(r: &mut Reader) -> Option<()> {
    r.fixed(0)?;
    for _ in 0..r.u16()? {
        r.take(13)?;
        let size = r.u16()? as usize;
        r.take(size)?;
    }
    Some(())
}

fn read_timers(r: &mut Reader) -> Option<()> {
    let mut seen = HashSet::new();
    for _ in 0..r.u16()? {
        r.position(&mut seen)?;
        r.take(8)?;
    }
    Some(())
}

pub fn read_sheet<'a, F>(sheet: &'a [u8], mut add: F) -> Option<()>
where
    F: FnMut(&'a [u8]) -> Option<()>,
{
    let mut r = Reader { left: sheet };
    demand(r.take(5)? == b"WSH\x00\x01")?;
    let mut last = i64::MIN;
    for _ in 0..r.u32()? {
        let key = r.u64()? as i64;
        let length = r.u32()? as usize;
        let block = r.take(length)?;
        demand(key_is_valid(key) && key > last)?;
        last = key;
        add(block)?;
    }
    demand(r.left.is_empty())
}

fn key_is_valid(key: i64) -> bool {
    let sum = key.wrapping_add(0x800800800);
    (0..1 << 36).contains(&sum)
}
