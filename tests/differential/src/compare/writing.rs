//! The writer.

use super::lent::Lent;
use super::{written, Compare, Input, Told};
use crate::model::writing::{self, Parts};
use crate::operation::Operation;
use anowhetele::raw::{self, Answer};

impl Compare {
    /// The library's answer, and what it wrote on 0.
    pub fn write(&mut self, parts: &Parts, room: usize) -> (Answer, Vec<u8>) {
        let inputs = [
            Input::shorts("param0", parts.param0),
            Input::new("param1", parts.param1),
            Input::new("param2", parts.param2),
            Input::new("names", parts.names),
            Input::new("metadata", parts.metadata),
            Input::new("objects", parts.objects),
            Input::new("timers", parts.timers),
        ];
        let mut out = Lent::bytes(&mut self.random, room);
        let library = call(parts, &mut out);
        let result = writing::write(parts, room);
        let (model, bytes) = written(&result);
        let buffers = [out.wrong("out", bytes)];
        let told = Told { operation: Operation::Write, number: model.number, library, model };
        self.judge(told, &buffers, &inputs, format_args!("{:?} with room for {room}", parts.head));
        let length = (library.length as usize).min(room);
        (library, out.content()[..length].to_vec())
    }
}

fn call(parts: &Parts, out: &mut Lent<u8>) -> Answer {
    let (pointer, room) = (out.pointer(), out.room());
    let Parts { head, param0, param1, param2, names, metadata, objects, timers } = *parts;
    unsafe {
        raw::anow_write(
            head,
            param0.as_ptr(),
            param0.len(),
            param1.as_ptr(),
            param1.len(),
            param2.as_ptr(),
            param2.len(),
            names.as_ptr(),
            names.len(),
            metadata.as_ptr(),
            metadata.len(),
            objects.as_ptr(),
            objects.len(),
            timers.as_ptr(),
            timers.len(),
            pointer,
            room,
        )
    }
}
