//! The reader, the section question and the node question.

use super::lent::Lent;
use super::{done, part, refused, Compare, Input, Told, NO_PART};
use crate::model::blocks::{self, ReadBlock};
use crate::model::Refusal;
use crate::operation::Operation;
use anowhetele::raw::{self, Block, Head, Node};

/// What the library read of a good block.
pub struct ReadParts {
    pub block: Block,
    pub param0: Vec<u16>,
    pub param1: Vec<u8>,
    pub param2: Vec<u8>,
}

impl Compare {
    /// Reads into lists of the lengths given. What the library read comes back where it took the block.
    pub fn read(&mut self, block: &[u8], lengths: [usize; 3]) -> Option<ReadParts> {
        let inputs = [Input::new("block", block)];
        let mut param0 = Lent::shorts(&mut self.random, lengths[0]);
        let mut param1 = Lent::bytes(&mut self.random, lengths[1]);
        let mut param2 = Lent::bytes(&mut self.random, lengths[2]);
        let (pointer0, pointer1, pointer2) = (param0.pointer(), param1.pointer(), param2.pointer());
        let [length0, length1, length2] = lengths;
        let library = unsafe {
            raw::anow_read(block.as_ptr(), block.len(), pointer0, length0, pointer1, length1, pointer2, length2)
        };
        let model = if lengths == [4096; 3] { blocks::read(block) } else { Err(Refusal::plain(12)) };
        let lists = match &model {
            Ok(read) => (&read.nodes.param0[..], &read.nodes.param1[..], &read.nodes.param2[..]),
            Err(_) => (&[][..], &[][..], &[][..]),
        };
        let buffers =
            [param0.wrong("param0", lists.0), param1.wrong("param1", lists.1), param2.wrong("param2", lists.2)];
        let model = told_block(&model);
        let told = Told { operation: Operation::Read, number: model.answer.number, library, model };
        self.judge(told, &buffers, &inputs, format_args!("into lists of {lengths:?}"));
        let [param1, param2] = [param1, param2].map(|list| list.content().to_vec());
        let parts = ReadParts { block: library, param0: param0.content().to_vec(), param1, param2 };
        (library.answer.number == 0).then_some(parts)
    }

    pub fn sections(&mut self, block: &[u8]) {
        let inputs = [Input::new("block", block)];
        let library = unsafe { raw::anow_sections(block.as_ptr(), block.len()) };
        let model = told_block(&blocks::read(block));
        let told = Told { operation: Operation::Sections, number: model.answer.number, library, model };
        self.judge(told, &[], &inputs, format_args!(""));
    }

    pub fn node_name(&mut self, block: &[u8], index: u64) {
        let inputs = [Input::new("block", block)];
        let library = unsafe { raw::anow_node_name(block.as_ptr(), block.len(), index) };
        let model = match blocks::node_name(block, index) {
            Ok(name) => Node { answer: done(0), name: part(&name) },
            Err(refusal) => Node { answer: refused(&refusal), name: NO_PART },
        };
        let told = Told { operation: Operation::NodeName, number: model.answer.number, library, model };
        self.judge(told, &[], &inputs, format_args!("of node {index}"));
    }
}

/// On a refusal the values beside the answer are 0.
fn told_block(read: &Result<ReadBlock, Refusal>) -> Block {
    match read {
        Ok(read) => Block {
            answer: done(0),
            head: read.head,
            names: part(&read.names),
            metadata: part(&read.metadata),
            objects: part(&read.objects),
            timers: part(&read.timers),
        },
        Err(refusal) => Block {
            answer: refused(refusal),
            head: Head { version: 0, flags: 0, lighting: 0, timestamp: 0, timer_byte: 0, list_form: 0 },
            names: NO_PART,
            metadata: NO_PART,
            objects: NO_PART,
            timers: NO_PART,
        },
    }
}
