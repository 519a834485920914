//! Document 01's shortest block, and sheets.

/// The shortest version 29 block: all air, the mapping `air` for id 0.
pub fn air(timestamp: u32) -> Vec<u8> {
    let mut block = vec![29, 0, 0xff, 0xff];
    block.extend(timestamp.to_be_bytes());
    block.extend(b"\x00\x00\x01\x00\x00\x00\x03air\x02\x02");
    block.resize(block.len() + 4 * 4096, 0);
    block.extend([2, 0, 0, 0, 0, 0, 10, 0, 0]);
    block
}

/// Where its first param0 stands.
pub const PARAM0: usize = 20;

// not every test has a sheet
#[allow(dead_code)]
pub fn sheet(records: &[(i64, &[u8])]) -> Vec<u8> {
    let mut sheet = b"WSH\x00\x01".to_vec();
    sheet.extend((records.len() as u32).to_be_bytes());
    for (key, block) in records {
        sheet.extend(key.to_be_bytes());
        sheet.extend((block.len() as u32).to_be_bytes());
        sheet.extend(*block);
    }
    sheet
}
