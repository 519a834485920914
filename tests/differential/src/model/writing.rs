//! 01, "Reading, looking, writing": the writer.

use super::blocks;
use super::fields::Fields;
use super::Refusal;
use anowhetele::raw::{Head, LIST_COUNTED, LIST_ZERO};

/// What the writer takes.
#[derive(Clone, Copy)]
pub struct Parts<'a> {
    pub head: Head,
    pub param0: &'a [u16],
    pub param1: &'a [u8],
    pub param2: &'a [u8],
    pub names: &'a [u8],
    pub metadata: &'a [u8],
    pub objects: &'a [u8],
    pub timers: &'a [u8],
}

/// "Writer: 2, 12, then what the reader would say of the bytes, then 11."
pub fn write(parts: &Parts, room: usize) -> Result<Vec<u8>, Refusal> {
    if !(22..=29).contains(&parts.head.version) {
        return Err(Refusal::plain(2));
    }
    let counts = judge_parts(parts).ok_or(Refusal::plain(12))?;
    let bytes = block_bytes(parts, &counts);
    blocks::read(&bytes)?;
    if bytes.len() > room {
        return Err(Refusal::plain(11));
    }
    Ok(bytes)
}

/// How many rows each section has.
struct Counts {
    names: u16,
    metadata: u16,
    objects: u16,
    timers: u16,
}

/// The writer's 12, as listed below the table of numbers and in 02, item 3; nothing where the parts do not fit.
fn judge_parts(parts: &Parts) -> Option<Counts> {
    let version = parts.head.version;
    let lists_fit = parts.param0.len() == 4096 && parts.param1.len() == 4096 && parts.param2.len() == 4096;
    let lighting_fits = version >= 27 || parts.head.lighting == 65_535;
    let timer_byte_fits = version == 24 || parts.head.timer_byte == 0;
    let list_form_fits = list_form_fits(parts);
    let param0_fits = version >= 24 || parts.param0.iter().all(|&param0| param0 <= 255);
    let may_have_timers = version >= 25 || (version == 24 && parts.head.timer_byte == 1);
    let timers_fit = may_have_timers || parts.timers.is_empty();
    if !(lists_fit && lighting_fits && timer_byte_fits && list_form_fits && param0_fits && timers_fit) {
        return None;
    }
    Some(Counts {
        names: whole_rows(parts.names, frame_name)?,
        metadata: whole_rows(parts.metadata, |fields| frame_metadata(fields, version))?,
        objects: whole_rows(parts.objects, frame_object)?,
        timers: whole_rows(parts.timers, frame_timer)?,
    })
}

/// 12 "when the head says 0 with metadata rows present, or says 0 in version 22"; a form above 1 is neither form.
fn list_form_fits(parts: &Parts) -> bool {
    match parts.head.list_form {
        LIST_COUNTED => true,
        LIST_ZERO => parts.head.version >= 23 && parts.metadata.is_empty(),
        _ => false,
    }
}

/// The number of rows; nothing for "a section not made of whole rows, over 65,535 rows". A row is whole where its bytes
/// are all there: what they say is for the reader to judge.
fn whole_rows(section: &[u8], frame: impl Fn(&mut Fields) -> Result<(), Refusal>) -> Option<u16> {
    let mut fields = Fields::new(section);
    let mut rows = 0_u32;
    while !fields.are_at_end() {
        frame(&mut fields).ok()?;
        rows += 1;
    }
    u16::try_from(rows).ok()
}

fn frame_name(fields: &mut Fields) -> Result<(), Refusal> {
    fields.run(2)?;
    frame_counted(fields)
}

fn frame_metadata(fields: &mut Fields, version: u8) -> Result<(), Refusal> {
    fields.run(2)?;
    if version == 22 {
        fields.run(2)?;
        return frame_counted(fields);
    }
    for _ in 0..fields.u32()? {
        frame_counted(fields)?;
        let value_length = fields.u32()?;
        fields.run(value_length as usize)?;
        fields.run(usize::from(version >= 28))?;
    }
    fields.inventory().map(drop)
}

fn frame_object(fields: &mut Fields) -> Result<(), Refusal> {
    fields.run(1 + 3 * 4)?;
    frame_counted(fields)
}

fn frame_timer(fields: &mut Fields) -> Result<(), Refusal> {
    fields.run(2 + 4 + 4).map(drop)
}

/// A u16 length and that many bytes.
fn frame_counted(fields: &mut Fields) -> Result<(), Refusal> {
    let length = fields.u16()?;
    fields.run(usize::from(length)).map(drop)
}

/// The bytes in the order of "Block layout", which the reader then judges.
fn block_bytes(parts: &Parts, counts: &Counts) -> Vec<u8> {
    let head = parts.head;
    let mut bytes = vec![head.version, head.flags];
    if head.version >= 27 {
        bytes.extend(head.lighting.to_be_bytes());
    }
    if head.version >= 29 {
        put_saved(&mut bytes, parts, counts);
    }
    put_nodes(&mut bytes, parts);
    put_metadata(&mut bytes, parts, counts);
    if head.version == 23 || head.version == 24 {
        bytes.push(head.timer_byte);
    }
    if head.version == 24 && head.timer_byte == 1 {
        put_rows(&mut bytes, counts.timers, parts.timers);
    }
    bytes.push(0);
    put_rows(&mut bytes, counts.objects, parts.objects);
    if head.version < 29 {
        put_saved(&mut bytes, parts, counts);
    }
    if head.version >= 25 {
        bytes.push(10);
        put_rows(&mut bytes, counts.timers, parts.timers);
    }
    bytes
}

fn put_saved(bytes: &mut Vec<u8>, parts: &Parts, counts: &Counts) {
    bytes.extend(parts.head.timestamp.to_be_bytes());
    bytes.push(0);
    put_rows(bytes, counts.names, parts.names);
}

fn put_nodes(bytes: &mut Vec<u8>, parts: &Parts) {
    if parts.head.version <= 23 {
        bytes.extend([1, 2]);
        bytes.extend(parts.param0.iter().map(|&param0| param0 as u8));
    } else {
        bytes.extend([2, 2]);
        bytes.extend(parts.param0.iter().flat_map(|param0| param0.to_be_bytes()));
    }
    bytes.extend(parts.param1);
    bytes.extend(parts.param2);
}

fn put_metadata(bytes: &mut Vec<u8>, parts: &Parts, counts: &Counts) {
    if parts.head.list_form == LIST_ZERO {
        bytes.push(0);
        return;
    }
    match parts.head.version {
        22 => bytes.extend([0, 1]),
        23..=27 => bytes.push(1),
        _ => bytes.push(2),
    }
    put_rows(bytes, counts.metadata, parts.metadata);
}

fn put_rows(bytes: &mut Vec<u8>, count: u16, rows: &[u8]) {
    bytes.extend(count.to_be_bytes());
    bytes.extend(rows);
}
