//! One unpacked block: reading, the name of a node, writing.
use crate::raw;
pub use crate::raw::{Head, LIST_COUNTED, LIST_ZERO};
use crate::refusal::{told, Refused};

/// How many nodes a block has.
pub const NODES: usize = 4096;

/// A block's head, and the rows of its four lists as parts of its bytes.
#[derive(Clone, Copy, Debug, PartialEq, Eq)]
pub struct Block<'a> {
    pub head: Head,
    pub names: &'a [u8],
    pub metadata: &'a [u8],
    pub objects: &'a [u8],
    pub timers: &'a [u8],
}

pub(crate) fn part(bytes: &[u8], part: raw::Part) -> &[u8] {
    &bytes[part.start as usize..][..part.length as usize]
}

fn taken(block: &[u8], read: raw::Block) -> Result<Block<'_>, Refused> {
    told(read.answer)?;
    Ok(Block {
        head: read.head,
        names: part(block, read.names),
        metadata: part(block, read.metadata),
        objects: part(block, read.objects),
        timers: part(block, read.timers),
    })
}

/// Reads a block, and its nodes into three lists of 4,096, by their index 256·z + 16·y + x.
/// Refused: 12 for a list not of 4,096, then the block's numbers.
pub fn read<'a>(
    block: &'a [u8],
    param0: &mut [u16],
    param1: &mut [u8],
    param2: &mut [u8],
) -> Result<Block<'a>, Refused> {
    taken(block, unsafe {
        raw::anow_read(
            block.as_ptr(),
            block.len(),
            param0.as_mut_ptr(),
            param0.len(),
            param1.as_mut_ptr(),
            param1.len(),
            param2.as_mut_ptr(),
            param2.len(),
        )
    })
}

/// Reads a block without its nodes. Refused: the block's numbers.
pub fn sections(block: &[u8]) -> Result<Block<'_>, Refused> {
    taken(block, unsafe { raw::anow_sections(block.as_ptr(), block.len()) })
}

/// The name of the node at an index, 256·z + 16·y + x: the very bytes in the block.
/// Refused: the block's numbers, then 16 for an index above 4,095.
pub fn node_name(block: &[u8], index: u64) -> Result<&[u8], Refused> {
    let node = unsafe { raw::anow_node_name(block.as_ptr(), block.len(), index) };
    told(node.answer)?;
    Ok(part(block, node.name))
}

/// How many of the low twelve lighting bits are zero.
pub fn light_count(lighting: u16) -> u32 {
    unsafe { raw::anow_light_count(lighting) }
}

/// Writes the block of these parts and lists to the front of an output, and tells its length; counts are worked out from the rows.
/// Refused: 2; 12 where the parts do not fit, also for [`LIST_ZERO`] in version 22 or with metadata rows, and for a list form that is neither; what
/// the reader would say of the bytes (4, 5, 6, 8, 34 or 35); 11.
pub fn write(block: Block, param0: &[u16], param1: &[u8], param2: &[u8], out: &mut [u8]) -> Result<usize, Refused> {
    told(unsafe {
        raw::anow_write(
            block.head,
            param0.as_ptr(),
            param0.len(),
            param1.as_ptr(),
            param1.len(),
            param2.as_ptr(),
            param2.len(),
            block.names.as_ptr(),
            block.names.len(),
            block.metadata.as_ptr(),
            block.metadata.len(),
            block.objects.as_ptr(),
            block.objects.len(),
            block.timers.as_ptr(),
            block.timers.len(),
            out.as_mut_ptr(),
            out.len(),
        )
    })
}
