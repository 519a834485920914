//! The rows of a block's sections, taken from the front. A row is judged alone, and the offset of a refusal counts from its first byte.
use crate::block::part;
use crate::raw;
use crate::refusal::{told, Refused};

/// A content id and its name.
#[derive(Clone, Copy, Debug, PartialEq, Eq)]
pub struct NameRow<'a> {
    pub id: u16,
    pub name: &'a [u8],
}

/// What a node has beside its params, by its position.
#[derive(Clone, Copy, Debug, PartialEq, Eq)]
pub struct MetadataRow<'a> {
    pub position: u16,
    pub content: MetadataContent<'a>,
}

#[derive(Clone, Copy, Debug, PartialEq, Eq)]
pub enum MetadataContent<'a> {
    /// Version 22: a type, and bytes that it gives a meaning.
    Typed { kind: u16, bytes: &'a [u8] },
    /// From version 23 on: so many variables, their rows, and an inventory.
    Variables {
        count: u32,
        rows: &'a [u8],
        inventory: &'a [u8],
    },
}

/// A static object.
#[derive(Clone, Copy, Debug, PartialEq, Eq)]
pub struct ObjectRow<'a> {
    pub kind: u8,
    pub x: i32,
    pub y: i32,
    pub z: i32,
    pub data: &'a [u8],
}

/// A node's timer.
#[derive(Clone, Copy, Debug, PartialEq, Eq)]
pub struct TimerRow {
    pub position: u16,
    pub timeout: i32,
    pub elapsed: i32,
}

/// The front row of a part, and what remains behind it.
pub type Front<'a, Row> = Result<(Row, &'a [u8]), Refused>;

fn behind(part: &[u8], answer: raw::Answer) -> Result<&[u8], Refused> {
    told(answer).map(|length| &part[length..])
}

/// Refused: 16 for an empty part, then 1.
pub fn name_row(bytes: &[u8]) -> Front<'_, NameRow<'_>> {
    let row = unsafe { raw::anow_row_name(bytes.as_ptr(), bytes.len()) };
    let rest = behind(bytes, row.answer)?;
    Ok((
        NameRow {
            id: row.id as u16,
            name: part(bytes, row.name),
        },
        rest,
    ))
}

/// Refused: 2, 16 for an empty part, then 1, 4 or 34.
pub fn metadata_row(version: u8, bytes: &[u8]) -> Front<'_, MetadataRow<'_>> {
    let row = unsafe { raw::anow_row_metadata(version, bytes.as_ptr(), bytes.len()) };
    let rest = behind(bytes, row.answer)?;
    let content = match version {
        22 => MetadataContent::Typed {
            kind: row.kind as u16,
            bytes: part(bytes, row.content),
        },
        _ => MetadataContent::Variables {
            count: row.variables,
            rows: part(bytes, row.variable_rows),
            inventory: part(bytes, row.inventory),
        },
    };
    Ok((
        MetadataRow {
            position: row.position as u16,
            content,
        },
        rest,
    ))
}

/// Refused: 16 for an empty part, then 1.
pub fn object_row(bytes: &[u8]) -> Front<'_, ObjectRow<'_>> {
    let row = unsafe { raw::anow_row_object(bytes.as_ptr(), bytes.len()) };
    let rest = behind(bytes, row.answer)?;
    Ok((
        ObjectRow {
            kind: row.kind as u8,
            x: row.x,
            y: row.y,
            z: row.z,
            data: part(bytes, row.data),
        },
        rest,
    ))
}

/// Refused: 16 for an empty part, then 1 or 4.
pub fn timer_row(bytes: &[u8]) -> Front<'_, TimerRow> {
    let row = unsafe { raw::anow_row_timer(bytes.as_ptr(), bytes.len()) };
    let rest = behind(bytes, row.answer)?;
    Ok((
        TimerRow {
            position: row.position as u16,
            timeout: row.timeout,
            elapsed: row.elapsed,
        },
        rest,
    ))
}

/// All rows of a section: each is taken from the front of what remains. A refused row is the last one given.
fn each<'a, Row: 'a>(
    section: &'a [u8],
    front: impl Fn(&'a [u8]) -> Front<'a, Row> + 'a,
) -> impl Iterator<Item = Result<Row, Refused>> + 'a {
    let mut rest = section;
    std::iter::from_fn(move || {
        if rest.is_empty() {
            return None;
        }
        let (row, behind) = match front(rest) {
            Ok((row, behind)) => (Ok(row), behind),
            Err(refused) => (Err(refused), &rest[..0]),
        };
        rest = behind;
        Some(row)
    })
}

pub fn name_rows(section: &[u8]) -> impl Iterator<Item = Result<NameRow<'_>, Refused>> {
    each(section, name_row)
}

pub fn metadata_rows(version: u8, section: &[u8]) -> impl Iterator<Item = Result<MetadataRow<'_>, Refused>> {
    each(section, move |bytes| metadata_row(version, bytes))
}

pub fn object_rows(section: &[u8]) -> impl Iterator<Item = Result<ObjectRow<'_>, Refused>> {
    each(section, object_row)
}

pub fn timer_rows(section: &[u8]) -> impl Iterator<Item = Result<TimerRow, Refused>> + '_ {
    each(section, timer_row)
}
