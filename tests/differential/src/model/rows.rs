//! 01, "Block layout": the rows of the four lists, and the row questions of "Reading, looking, writing".
//! Each field is judged when it is read, so a row is judged field by field. The ids or positions of the rows before it
//! are handed in; a row question judges its row alone, and hands in none.

use super::fields::Fields;
use super::Refusal;
use std::collections::HashSet;
use std::ops::Range;

pub struct NameRow {
    pub id: u16,
    pub name: Range<usize>,
}

/// "name rows of u16 id, u16 length, name"; 6: id already mapped.
pub fn name_row(fields: &mut Fields, mapped: &mut HashSet<u16>) -> Result<NameRow, Refusal> {
    let start = fields.at;
    let id = fields.u16()?;
    if !mapped.insert(id) {
        return Err(Refusal::at(6, start));
    }
    let length = fields.u16()?;
    let name = fields.run(usize::from(length))?;
    Ok(NameRow { id, name })
}

/// 4: position above 4095; 5: position already in its list.
fn position(fields: &mut Fields, taken: &mut HashSet<u16>) -> Result<u16, Refusal> {
    let start = fields.at;
    let position = fields.u16()?;
    if position > 4095 {
        return Err(Refusal::at(4, start));
    }
    if !taken.insert(position) {
        return Err(Refusal::at(5, start));
    }
    Ok(position)
}

pub struct OldMetadata {
    pub kind: u16,
    pub content: Range<usize>,
}

pub struct NewMetadata {
    pub variables: u32,
    pub variable_rows: Range<usize>,
    pub inventory: Range<usize>,
}

pub enum MetadataContent {
    /// Version 22.
    Old(OldMetadata),
    /// From 23.
    New(NewMetadata),
}

pub struct MetadataRow {
    pub position: u16,
    pub content: MetadataContent,
}

pub fn metadata_row(fields: &mut Fields, version: u8, taken: &mut HashSet<u16>) -> Result<MetadataRow, Refusal> {
    let position = position(fields, taken)?;
    let content = if version == 22 {
        MetadataContent::Old(old_metadata(fields)?)
    } else {
        MetadataContent::New(new_metadata(fields, version >= 28)?)
    };
    Ok(MetadataRow { position, content })
}

/// Version 22: "u16 type, u16 size, that many bytes".
fn old_metadata(fields: &mut Fields) -> Result<OldMetadata, Refusal> {
    let kind = fields.u16()?;
    let size = fields.u16()?;
    let content = fields.run(usize::from(size))?;
    Ok(OldMetadata { kind, content })
}

/// From 23: "u32 number of variables, then the variables, then one inventory".
fn new_metadata(fields: &mut Fields, with_private: bool) -> Result<NewMetadata, Refusal> {
    let variables = fields.u32()?;
    let start = fields.at;
    for _ in 0..variables {
        variable(fields, with_private)?;
    }
    let variable_rows = start..fields.at;
    let inventory = fields.inventory()?;
    Ok(NewMetadata { variables, variable_rows, inventory })
}

/// "u16 length, key, u32 length, value, and in list version 2 a u8 0 or 1".
fn variable(fields: &mut Fields, with_private: bool) -> Result<(), Refusal> {
    let key_length = fields.u16()?;
    fields.run(usize::from(key_length))?;
    let value_length = fields.u32()?;
    fields.run(value_length as usize)?;
    if with_private {
        fields.u8_of(34, &[0, 1])?;
    }
    Ok(())
}

pub struct ObjectRow {
    pub kind: u8,
    pub x: i32,
    pub y: i32,
    pub z: i32,
    pub data: Range<usize>,
}

/// "static objects: u8 type, three s32, u16 size, that many bytes".
pub fn object_row(fields: &mut Fields) -> Result<ObjectRow, Refusal> {
    let kind = fields.u8()?;
    let x = fields.s32()?;
    let y = fields.s32()?;
    let z = fields.s32()?;
    let size = fields.u16()?;
    let data = fields.run(usize::from(size))?;
    Ok(ObjectRow { kind, x, y, z, data })
}

pub struct TimerRow {
    pub position: u16,
    pub timeout: i32,
    pub elapsed: i32,
}

/// "timer rows of u16 position, s32 timeout, s32 elapsed".
pub fn timer_row(fields: &mut Fields, taken: &mut HashSet<u16>) -> Result<TimerRow, Refusal> {
    let position = position(fields, taken)?;
    let timeout = fields.s32()?;
    let elapsed = fields.s32()?;
    Ok(TimerRow { position, timeout, elapsed })
}

/// "Row question: 2, then 16 for an empty part, then the reader's 1, 3 or 4", where item 2 has 34 for 3. With the row
/// comes its length.
fn front<Row>(
    part: &[u8],
    take: impl Fn(&mut Fields, &mut HashSet<u16>) -> Result<Row, Refusal>,
) -> Result<(Row, usize), Refusal> {
    if part.is_empty() {
        return Err(Refusal::plain(16));
    }
    let mut fields = Fields::new(part);
    let row = take(&mut fields, &mut HashSet::new())?;
    Ok((row, fields.at))
}

pub fn ask_name(part: &[u8]) -> Result<(NameRow, usize), Refusal> {
    front(part, name_row)
}

pub fn ask_metadata(version: u8, part: &[u8]) -> Result<(MetadataRow, usize), Refusal> {
    if !(22..=29).contains(&version) {
        return Err(Refusal::plain(2));
    }
    front(part, |fields, taken| metadata_row(fields, version, taken))
}

pub fn ask_object(part: &[u8]) -> Result<(ObjectRow, usize), Refusal> {
    front(part, |fields, _| object_row(fields))
}

pub fn ask_timer(part: &[u8]) -> Result<(TimerRow, usize), Refusal> {
    front(part, timer_row)
}
