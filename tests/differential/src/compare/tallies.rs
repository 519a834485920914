//! Tallies: checking, adding, merging, and the tallies of a block and of a sheet.
//! Those with an output give the library's answer, and what it wrote on 0.

use super::lent::Lent;
use super::{checked, written, Compare, Input, Told};
use crate::model::{counting, sheets, tallies, Refusal};
use crate::operation::Operation;
use anowhetele::raw::{self, Answer, Lot, Span};
use std::fmt::Arguments;

impl Compare {
    pub fn tally_check(&mut self, tally: &[u8]) {
        let inputs = [Input::new("tally", tally)];
        let library = unsafe { raw::anow_tally_check(tally.as_ptr(), tally.len()) };
        let model = checked(tallies::check(tally));
        let told = Told { operation: Operation::TallyCheck, number: model.number, library, model };
        self.judge(told, &[], &inputs, format_args!(""));
    }

    /// Adds in a buffer of `room` bytes with the tally at its front.
    pub fn tally_add(&mut self, tally: &[u8], room: usize, stated: u64, name: &[u8], count: u64) -> (Answer, Vec<u8>) {
        let mut buffer = Lent::holding(&mut self.random, tally, room);
        let result = tallies::add(buffer.content(), stated, name, count);
        let inputs = [Input::new("tally", tally), Input::new("name", name)];
        let pointer = buffer.pointer();
        let library = unsafe { raw::anow_tally_add(pointer, room, stated, name.as_ptr(), name.len(), count) };
        let words = format_args!("{count}, stated length {stated}, buffer of {room}");
        self.output(Operation::TallyAdd, library, &result, &buffer, &inputs, words)
    }

    pub fn tally_merge(&mut self, first: &[u8], second: &[u8], room: usize) -> (Answer, Vec<u8>) {
        let inputs = [Input::new("first", first), Input::new("second", second)];
        let mut out = Lent::bytes(&mut self.random, room);
        let (a, a_length, b, b_length) = (first.as_ptr(), first.len(), second.as_ptr(), second.len());
        let library = unsafe { raw::anow_tally_merge(a, a_length, b, b_length, out.pointer(), room) };
        let result = tallies::merge(first, second, room);
        self.output(Operation::TallyMerge, library, &result, &out, &inputs, format_args!("with room for {room}"))
    }

    pub fn tally_block(&mut self, key: i64, block: &[u8], (lot, span): (Lot, Span), room: usize) -> (Answer, Vec<u8>) {
        let inputs = [Input::new("block", block)];
        let mut out = Lent::bytes(&mut self.random, room);
        let (bytes, length) = (block.as_ptr(), block.len());
        let library = unsafe { raw::anow_tally_block(key, bytes, length, lot, span, out.pointer(), room) };
        let result = counting::tally_block(key, block, lot, span, room);
        let words = format_args!("at {key} {lot:?} {span:?} with room for {room}");
        self.output(Operation::TallyBlock, library, &result, &out, &inputs, words)
    }

    pub fn tally_sheet(
        &mut self,
        sheet: &[u8],
        (lot, span): (Lot, Span),
        room: usize,
        spare_length: usize,
    ) -> (Answer, Vec<u8>) {
        let inputs = [Input::new("sheet", sheet)];
        let mut out = Lent::bytes(&mut self.random, room);
        let mut spare = Lent::bytes(&mut self.random, spare_length);
        let (bytes, length, pointer) = (sheet.as_ptr(), sheet.len(), spare.pointer());
        let library =
            unsafe { raw::anow_tally_sheet(bytes, length, lot, span, out.pointer(), room, pointer, spare_length) };
        let result = sheets::tally_sheet(sheet, lot, span, room, spare_length);
        if let Some(text) = spare.wrong_guards("spare") {
            self.note(text, vec![("sheet", sheet.to_vec())]);
        }
        let words = format_args!("{lot:?} {span:?} with room for {room} and a spare of {spare_length}");
        self.output(Operation::TallySheet, library, &result, &out, &inputs, words)
    }

    /// Compares a call whose result stands at the front of a lent buffer.
    fn output(
        &mut self,
        operation: Operation,
        library: Answer,
        result: &Result<Vec<u8>, Refusal>,
        out: &Lent<u8>,
        inputs: &[Input],
        words: Arguments,
    ) -> (Answer, Vec<u8>) {
        let (model, bytes) = written(result);
        let buffers = [out.wrong("output", bytes)];
        let told = Told { operation, number: model.number, library, model };
        self.judge(told, &buffers, inputs, words);
        let length = (library.length as usize).min(out.room());
        (library, out.content()[..length].to_vec())
    }
}
