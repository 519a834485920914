//! Reading, rows, the name of a node, writing.
mod common;

use anowhetele::*;
use common::{air, PARAM0};

fn lists() -> ([u16; NODES], [u8; NODES], [u8; NODES]) {
    ([7; NODES], [7; NODES], [7; NODES])
}

/// Where the metadata list of the blocks below starts.
const METADATA: usize = PARAM0 + 4 * NODES;

/// The shortest version 29 block with a single 0 for its metadata list.
fn with_zero() -> Vec<u8> {
    let mut block = air(5);
    block.splice(METADATA..METADATA + 3, [0]);
    block
}

/// Version 29, with a row in each list.
fn furnished() -> Vec<u8> {
    let mut block = air(5);
    block.truncate(METADATA);
    block.extend(
        b"\x02\x00\x01\x0f\xff\x00\x00\x00\x01\x00\x04text\x00\x00\x00\x02hi\x01EndInventoryList\nEndInventory\n",
    );
    block.extend(b"\x00\x00\x01\x07\xff\xff\xff\xff\x00\x00\x00\x02\x00\x00\x00\x03\x00\x02ox");
    block.extend(b"\x0a\x00\x01\x00\x09\x00\x00\x03\xe8\xff\xff\xff\xfe");
    block
}

#[test]
fn what_was_read_writes_back() {
    let bytes = furnished();
    let (mut param0, mut param1, mut param2) = lists();
    let block = read(&bytes, &mut param0, &mut param1, &mut param2).unwrap();
    assert_eq!(
        block.head,
        Head {
            version: 29,
            flags: 0,
            lighting: 65_535,
            timestamp: 5,
            timer_byte: 0,
            list_form: LIST_COUNTED
        }
    );
    assert_eq!(block, sections(&bytes).unwrap());
    let mut out = vec![9; bytes.len() + 1];
    assert_eq!(write(block, &param0, &param1, &param2, &mut out), Ok(bytes.len()));
    assert_eq!(out[..bytes.len()], bytes);
    assert_eq!(out[bytes.len()], 9);
    let short = write(block, &param0, &param1, &param2, &mut out[1..bytes.len()]).unwrap_err();
    assert_eq!(short.refusal, Refusal::NoRoom);
}

#[test]
fn a_list_of_no_rows_has_two_forms() {
    // each with the length of what stands before its rows
    for (bytes, list_form, length) in [(air(5), LIST_COUNTED, 3), (with_zero(), LIST_ZERO, 1)] {
        let (mut param0, mut param1, mut param2) = lists();
        let block = read(&bytes, &mut param0, &mut param1, &mut param2).unwrap();
        assert_eq!(block.head.list_form, list_form);
        assert_eq!(block, sections(&bytes).unwrap());
        let rows = &bytes[METADATA + length..][..0];
        assert_eq!(block.metadata.as_ptr_range(), rows.as_ptr_range());
        let mut out = vec![9; bytes.len()];
        assert_eq!(write(block, &param0, &param1, &param2, &mut out), Ok(bytes.len()));
        assert_eq!(out, bytes);
    }
    assert_eq!(size_of::<Head>(), 12);
}

#[test]
fn the_list_form_must_fit() {
    let (zero, rows) = (with_zero(), furnished());
    let (zero, rows) = (sections(&zero).unwrap(), sections(&rows).unwrap());
    let written = |block: Block, version: u8, list_form: u8| {
        let head = Head {
            version,
            list_form,
            ..block.head
        };
        let block = Block { head, ..block };
        write(block, &[0; NODES], &[0; NODES], &[0; NODES], &mut [0; 20_000]).map_err(|refused| refused.refusal)
    };
    assert_eq!(written(zero, 29, LIST_ZERO), Ok(16_411));
    assert_eq!(written(zero, 29, LIST_COUNTED), Ok(16_413));
    assert_eq!(written(zero, 23, LIST_ZERO), Ok(12_311));
    assert_eq!(written(zero, 22, LIST_COUNTED), Ok(12_313));
    for (block, version, list_form) in [
        (zero, 22, LIST_ZERO),
        (rows, 29, LIST_ZERO),
        (zero, 29, 2),
        (zero, 29, 255),
    ] {
        assert_eq!(written(block, version, list_form), Err(Refusal::PartsMisfit));
    }
}

#[test]
fn each_fixed_field_has_a_number_of_its_own() {
    let fields = [
        (8, Refusal::MappingVersionDiffers),
        (18, Refusal::ContentWidthDiffers),
        (19, Refusal::ParamsWidthDiffers),
        (16_404, Refusal::MetadataVersionDiffers),
        (16_425, Refusal::PrivateByteDiffers),
        (16_456, Refusal::ObjectVersionDiffers),
        (16_476, Refusal::TimerRowLengthDiffers),
    ];
    for (offset, refusal) in fields {
        let mut bytes = furnished();
        bytes[offset] = 77;
        let refused = sections(&bytes).unwrap_err();
        assert_eq!((refused.refusal, refused.offset), (refusal, Some(offset as u64)));
    }
    let head = Head {
        version: 24,
        flags: 0,
        lighting: 65_535,
        timestamp: 5,
        timer_byte: 2,
        list_form: LIST_COUNTED,
    };
    let bytes = air(5);
    let block = Block {
        head,
        ..sections(&bytes).unwrap()
    };
    let refused = write(block, &[0; NODES], &[0; NODES], &[0; NODES], &mut [0; 20_000]).unwrap_err();
    let words = "refused 35 at offset 16391: the timer byte is not 0 in version 23, or not 0 or 1 in version 24";
    assert_eq!(refused.to_string(), words);
}

#[test]
fn rows_come_from_the_front() {
    let bytes = furnished();
    let block = sections(&bytes).unwrap();
    let (name, rest) = name_row(block.names).unwrap();
    assert_eq!((name, rest.len()), (NameRow { id: 0, name: b"air" }, 0));
    assert_eq!(name_rows(block.names).collect::<Vec<_>>(), [Ok(name)]);
    let inventory = &b"EndInventoryList\nEndInventory\n"[..];
    let content = MetadataContent::Variables {
        count: 1,
        rows: b"\x00\x04text\x00\x00\x00\x02hi\x01",
        inventory,
    };
    assert_eq!(
        metadata_rows(29, block.metadata).collect::<Vec<_>>(),
        [Ok(MetadataRow {
            position: 4095,
            content
        })]
    );
    let object = ObjectRow {
        kind: 7,
        x: -1,
        y: 2,
        z: 3,
        data: b"ox",
    };
    assert_eq!(object_rows(block.objects).collect::<Vec<_>>(), [Ok(object)]);
    let timer = TimerRow {
        position: 9,
        timeout: 1000,
        elapsed: -2,
    };
    assert_eq!(timer_rows(block.timers).collect::<Vec<_>>(), [Ok(timer)]);
}

#[test]
fn a_refused_row_is_the_last() {
    let rows: Vec<_> = timer_rows(&[0, 1, 0, 0, 0, 0, 0, 0, 0, 0, 0x10, 0]).collect();
    assert_eq!(rows.len(), 2);
    assert_eq!(
        rows[1].unwrap_err().to_string(),
        "refused 4 at offset 0: a position is above 4095"
    );
    assert_eq!(name_row(b"").unwrap_err().refusal, Refusal::NoSuch);
    assert_eq!(metadata_row(21, b"").unwrap_err().refusal, Refusal::VersionOutside);
}

#[test]
fn old_metadata_has_a_type() {
    let (row, rest) = metadata_row(22, b"\x00\x05\x00\x0e\x00\x03abcd").unwrap();
    assert_eq!(
        row.content,
        MetadataContent::Typed {
            kind: 14,
            bytes: b"abc"
        }
    );
    assert_eq!((row.position, rest), (5, &b"d"[..]));
}

#[test]
fn a_node_bears_the_very_bytes() {
    let bytes = air(5);
    let name = node_name(&bytes, 4095).unwrap();
    assert_eq!(name, b"air");
    assert!(bytes.as_ptr_range().contains(&name.as_ptr()));
    assert_eq!(node_name(&bytes, 4096).unwrap_err().refusal, Refusal::NoSuch);
}

#[test]
fn a_refusal_leaves_the_lists() {
    let (mut param0, mut param1, mut param2) = lists();
    let refused = read(&[], &mut param0, &mut param1, &mut param2).unwrap_err();
    let words = "refused 1 at offset 0: the bytes end inside a field, or an inventory has no end line";
    assert_eq!(refused.to_string(), words);
    assert_eq!((param0, param1, param2), lists());
    assert_eq!(
        read(&air(5), &mut param0[1..], &mut param1, &mut param2)
            .unwrap_err()
            .refusal,
        Refusal::PartsMisfit
    );
    let mut bytes = air(5);
    bytes[PARAM0 + 6] = 1;
    assert_eq!(sections(&bytes).unwrap_err().offset, Some(PARAM0 as u64 + 6));
}

#[test]
fn dark_bits_are_counted() {
    assert_eq!((light_count(0xfffe), light_count(0xf000)), (1, 12));
}
