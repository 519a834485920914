//! 01, "Block layout": the reader, and the node question.

use super::fields::Fields;
use super::rows::{self, NameRow};
use super::Refusal;
use anowhetele::raw::{Head, LIST_COUNTED, LIST_ZERO};
use std::collections::HashSet;
use std::ops::Range;

/// Everything that was read of a block; a section is the place of its rows in the block's bytes.
pub struct ReadBlock {
    pub head: Head,
    pub nodes: Nodes,
    pub mapping: Mapping,
    pub names: Range<usize>,
    pub metadata: Range<usize>,
    pub objects: Range<usize>,
    pub timers: Range<usize>,
}

/// The three lists, and where the first entry of param0 stands.
pub struct Nodes {
    pub start: usize,
    pub param0: Vec<u16>,
    pub param1: Vec<u8>,
    pub param2: Vec<u8>,
}

/// The name rows, and for each of the 65,536 ids the number of its row, from 1; 0 for an id that is not mapped.
pub struct Mapping {
    pub rows: Vec<NameRow>,
    row_of_id: Vec<u16>,
}

impl Mapping {
    /// The number, from 0, of the row that maps an id.
    pub fn row_of(&self, id: u16) -> Option<usize> {
        usize::from(self.row_of_id[usize::from(id)]).checked_sub(1)
    }
}

/// "Reader: fields in byte order, each judged when read, then 7, then 8."
pub fn read(bytes: &[u8]) -> Result<ReadBlock, Refusal> {
    let mut fields = Fields::new(bytes);
    let version = version(&mut fields)?;
    let flags = fields.u8()?;
    let lighting = if version >= 27 { fields.u16()? } else { 65_535 };
    let saved_before = if version >= 29 { Some(saved(&mut fields)?) } else { None };
    let nodes = nodes(&mut fields, version)?;
    let (list_form, metadata) = metadata(&mut fields, version)?;
    let (timer_byte, timers_before) = timers_behind_metadata(&mut fields, version)?;
    let objects = objects(&mut fields)?;
    let (timestamp, names, mapping) = match saved_before {
        Some(saved) => saved,
        None => saved(&mut fields)?,
    };
    let timers = if version >= 25 { timers_at_end(&mut fields)? } else { timers_before };
    if !fields.are_at_end() {
        return Err(Refusal::at(7, fields.at));
    }
    let head = Head { version, flags, lighting, timestamp, timer_byte, list_form };
    let block = ReadBlock { head, nodes, mapping, names, metadata, objects, timers };
    every_used_id_is_mapped(&block)?;
    Ok(block)
}

/// 1. "u8 version 22..29"
fn version(fields: &mut Fields) -> Result<u8, Refusal> {
    let version = fields.u8()?;
    if !(22..=29).contains(&version) {
        return Err(Refusal::at(2, 0));
    }
    Ok(version)
}

/// 7. "u32 timestamp; u8 0, u16 count, name rows"
fn saved(fields: &mut Fields) -> Result<(u32, Range<usize>, Mapping), Refusal> {
    let timestamp = fields.u32()?;
    fields.fixed_u8(37, 0)?;
    let count = fields.u16()?;
    let start = fields.at;
    let mut mapped = HashSet::new();
    let mut mapping = Mapping { rows: Vec::new(), row_of_id: vec![0; 65_536] };
    for number in 1..=count {
        let row = rows::name_row(fields, &mut mapped)?;
        mapping.row_of_id[usize::from(row.id)] = number;
        mapping.rows.push(row);
    }
    Ok((timestamp, start..fields.at, mapping))
}

/// 3. and 4.: the widths, then 4,096 fields each of param0, param1 and param2.
fn nodes(fields: &mut Fields, version: u8) -> Result<Nodes, Refusal> {
    let width = if version <= 23 { 1 } else { 2 };
    fields.fixed_u8(31, width)?;
    fields.fixed_u8(32, 2)?;
    let start = fields.at;
    let (mut param0, mut param1, mut param2) = (Vec::new(), Vec::new(), Vec::new());
    for _ in 0..4096 {
        param0.push(if width == 1 { u16::from(fields.u8()?) } else { fields.u16()? });
    }
    for _ in 0..4096 {
        param1.push(fields.u8()?);
    }
    for _ in 0..4096 {
        param2.push(fields.u8()?);
    }
    Ok(Nodes { start, param0, param1, param2 })
}

/// 5, "Metadata", and 02, item 3: "From version 23 on, list version 0 means an empty list with no count." Its section
/// starts behind the 0. With the section comes the list form.
fn metadata(fields: &mut Fields, version: u8) -> Result<(u8, Range<usize>), Refusal> {
    let list_version = match version {
        22 => fields.fixed_u16(33, 1).map(|()| 1)?,
        23..=27 => fields.u8_of(33, &[0, 1])?,
        _ => fields.u8_of(33, &[0, 2])?,
    };
    if list_version == 0 {
        return Ok((LIST_ZERO, fields.at..fields.at));
    }
    let count = fields.u16()?;
    let start = fields.at;
    let mut taken = HashSet::new();
    for _ in 0..count {
        rows::metadata_row(fields, version, &mut taken)?;
    }
    Ok((LIST_COUNTED, start..fields.at))
}

/// Behind 5: "version 23 has one u8 0; version 24 has a u8 timer byte, 0 (nothing more) or 1 (u16 count and timer
/// rows)". The timers of a block that has none here start behind what stands in their place.
fn timers_behind_metadata(fields: &mut Fields, version: u8) -> Result<(u8, Range<usize>), Refusal> {
    let mut timer_byte = 0;
    if version == 23 {
        fields.fixed_u8(35, 0)?;
    }
    if version == 24 {
        timer_byte = fields.u8_of(35, &[0, 1])?;
    }
    if timer_byte == 1 {
        return Ok((1, timers(fields)?));
    }
    Ok((0, fields.at..fields.at))
}

/// 6. "u8 0, u16 count, static objects"
fn objects(fields: &mut Fields) -> Result<Range<usize>, Refusal> {
    fields.fixed_u8(36, 0)?;
    let count = fields.u16()?;
    let start = fields.at;
    for _ in 0..count {
        rows::object_row(fields)?;
    }
    Ok(start..fields.at)
}

/// 8. "From 25: u8 10, u16 count, timer rows"
fn timers_at_end(fields: &mut Fields) -> Result<Range<usize>, Refusal> {
    fields.fixed_u8(38, 10)?;
    timers(fields)
}

fn timers(fields: &mut Fields) -> Result<Range<usize>, Refusal> {
    let count = fields.u16()?;
    let start = fields.at;
    let mut taken = HashSet::new();
    for _ in 0..count {
        rows::timer_row(fields, &mut taken)?;
    }
    Ok(start..fields.at)
}

impl ReadBlock {
    /// "Content id: up to version 23, param0 if below 128, else 16·param0 plus param2 divided by 16 rounded down; from
    /// 24, param0."
    pub fn content_id(&self, index: usize) -> u16 {
        let (param0, param2) = (self.nodes.param0[index], self.nodes.param2[index]);
        if self.head.version <= 23 && param0 >= 128 {
            16 * param0 + u16::from(param2) / 16
        } else {
            param0
        }
    }
}

/// 8: "used id unmapped; place of the first such node's param0".
fn every_used_id_is_mapped(block: &ReadBlock) -> Result<(), Refusal> {
    let width = if block.head.version <= 23 { 1 } else { 2 };
    for index in 0..4096 {
        if block.mapping.row_of(block.content_id(index)).is_none() {
            return Err(Refusal::at(8, block.nodes.start + width * index));
        }
    }
    Ok(())
}

/// "Node question: the reader's number, then 16 for an index above 4095." The name's place in the block.
pub fn node_name(bytes: &[u8], index: u64) -> Result<Range<usize>, Refusal> {
    let block = read(bytes)?;
    if index > 4095 {
        return Err(Refusal::plain(16));
    }
    let row = block.mapping.row_of(block.content_id(index as usize)).unwrap();
    Ok(block.mapping.rows[row].name.clone())
}
