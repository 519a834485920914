//! The C functions as they are, under the names of `include/anowhetele.h`, which says what each takes, gives and refuses.
//! A slice is two arguments, pointer and length in elements. Pointers must be good for their lengths, and an output overlaps no other buffer.

/// What a call comes back with; `length` is the result's, on 0.
#[repr(C)]
#[derive(Clone, Copy, Debug, PartialEq, Eq)]
pub struct Answer {
    pub number: u32,
    pub record: u32,
    pub offset: u64,
    pub length: u64,
}

/// A run of the bytes that were given.
#[repr(C)]
#[derive(Clone, Copy, Debug, PartialEq, Eq)]
pub struct Part {
    pub start: u64,
    pub length: u64,
}

/// Node coordinates, both ends inside: the least on each axis, then the greatest.
#[repr(C)]
#[derive(Clone, Copy, Debug, PartialEq, Eq)]
pub struct Lot {
    pub x0: i32,
    pub y0: i32,
    pub z0: i32,
    pub x1: i32,
    pub y1: i32,
    pub z1: i32,
}

/// Seconds: `from` is inside, `until` is not.
#[repr(C)]
#[derive(Clone, Copy, Debug, PartialEq, Eq)]
pub struct Span {
    pub from: u32,
    pub until: u32,
}

/// The form of a metadata list that has its list version and its count before the rows.
pub const LIST_COUNTED: u8 = 0;

/// The form of a metadata list that is a single 0, with no count: a list of no rows may be that from version 23 on.
pub const LIST_ZERO: u8 = 1;

/// A block's head. Lighting is 65,535 under version 27, the timer byte 0 except in 24, the list form [`LIST_COUNTED`] in version 22 and where
/// there are metadata rows.
#[repr(C)]
#[derive(Clone, Copy, Debug, PartialEq, Eq)]
pub struct Head {
    pub version: u8,
    pub flags: u8,
    pub lighting: u16,
    pub timestamp: u32,
    pub timer_byte: u8,
    pub list_form: u8,
}

#[repr(C)]
#[derive(Clone, Copy, Debug, PartialEq, Eq)]
pub struct Key {
    pub number: u32,
    pub key: i64,
}

#[repr(C)]
#[derive(Clone, Copy, Debug, PartialEq, Eq)]
pub struct Coordinates {
    pub number: u32,
    pub x: i32,
    pub y: i32,
    pub z: i32,
}

/// `inside` is 0 or 1.
#[repr(C)]
#[derive(Clone, Copy, Debug, PartialEq, Eq)]
pub struct Inside {
    pub number: u32,
    pub inside: u32,
}

#[repr(C)]
#[derive(Clone, Copy, Debug, PartialEq, Eq)]
pub struct Block {
    pub answer: Answer,
    pub head: Head,
    pub names: Part,
    pub metadata: Part,
    pub objects: Part,
    pub timers: Part,
}

#[repr(C)]
#[derive(Clone, Copy, Debug, PartialEq, Eq)]
pub struct NameRow {
    pub answer: Answer,
    pub id: u32,
    pub name: Part,
}

/// Type and content are version 22's; variables, their rows and the inventory stand from 23 on. The others are 0.
#[repr(C)]
#[derive(Clone, Copy, Debug, PartialEq, Eq)]
pub struct MetadataRow {
    pub answer: Answer,
    pub position: u32,
    pub kind: u32,
    pub variables: u32,
    pub content: Part,
    pub variable_rows: Part,
    pub inventory: Part,
}

#[repr(C)]
#[derive(Clone, Copy, Debug, PartialEq, Eq)]
pub struct ObjectRow {
    pub answer: Answer,
    pub kind: u32,
    pub x: i32,
    pub y: i32,
    pub z: i32,
    pub data: Part,
}

#[repr(C)]
#[derive(Clone, Copy, Debug, PartialEq, Eq)]
pub struct TimerRow {
    pub answer: Answer,
    pub position: u32,
    pub timeout: i32,
    pub elapsed: i32,
}

#[repr(C)]
#[derive(Clone, Copy, Debug, PartialEq, Eq)]
pub struct Node {
    pub answer: Answer,
    pub name: Part,
}

/// The total is in thousandths; `unpriced` is a number of nodes.
#[repr(C)]
#[derive(Clone, Copy, Debug, PartialEq, Eq)]
pub struct Bill {
    pub answer: Answer,
    pub total: u64,
    pub unpriced: u64,
}

#[rustfmt::skip]
extern "C" {
    pub fn anow_key_join(x: i32, y: i32, z: i32) -> Key;
    pub fn anow_key_split(key: i64) -> Coordinates;
    pub fn anow_lot_has(lot: Lot, x: i32, y: i32, z: i32) -> Inside;
    pub fn anow_span_has(span: Span, second: u32) -> Inside;

    pub fn anow_light_count(lighting: u16) -> u32;
    pub fn anow_read(block: *const u8, length: usize, param0: *mut u16, length0: usize, param1: *mut u8, length1: usize,
        param2: *mut u8, length2: usize) -> Block;
    pub fn anow_sections(block: *const u8, length: usize) -> Block;
    pub fn anow_node_name(block: *const u8, length: usize, index: u64) -> Node;
    pub fn anow_row_name(part: *const u8, length: usize) -> NameRow;
    pub fn anow_row_metadata(version: u8, part: *const u8, length: usize) -> MetadataRow;
    pub fn anow_row_object(part: *const u8, length: usize) -> ObjectRow;
    pub fn anow_row_timer(part: *const u8, length: usize) -> TimerRow;
    pub fn anow_write(head: Head, param0: *const u16, length0: usize, param1: *const u8, length1: usize, param2: *const u8,
        length2: usize, names: *const u8, names_length: usize, metadata: *const u8, metadata_length: usize, objects: *const u8,
        objects_length: usize, timers: *const u8, timers_length: usize, out: *mut u8, room: usize) -> Answer;

    pub fn anow_tally_check(tally: *const u8, length: usize) -> Answer;
    pub fn anow_tally_add(buffer: *mut u8, room: usize, used: u64, name: *const u8, length: usize, count: u64) -> Answer;
    pub fn anow_tally_merge(a: *const u8, a_length: usize, b: *const u8, b_length: usize, out: *mut u8, room: usize) -> Answer;

    pub fn anow_tally_block(key: i64, block: *const u8, length: usize, lot: Lot, span: Span, out: *mut u8, room: usize) -> Answer;
    pub fn anow_tally_sheet(sheet: *const u8, length: usize, lot: Lot, span: Span, out: *mut u8, room: usize, spare: *mut u8,
        spare_length: usize) -> Answer;

    pub fn anow_rates_check(rates: *const u8, rates_length: usize) -> Answer;
    pub fn anow_price_block(key: i64, block: *const u8, block_length: usize, rates: *const u8, rates_length: usize, lot: Lot,
        span: Span) -> Bill;
    pub fn anow_price_sheet(sheet: *const u8, sheet_length: usize, rates: *const u8, rates_length: usize, lot: Lot, span: Span) -> Bill;
}
