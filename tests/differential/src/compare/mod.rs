//! Each operation asked of the library and of the model, and both compared in full: answers, lent buffers, inputs.

mod blocks;
mod lent;
mod numbers;
mod prices;
mod rows;
mod tallies;
mod writing;

use crate::model::Refusal;
use crate::operation::{Operation, Table};
use crate::random::Random;
use anowhetele::raw::{Answer, Part};
use std::fmt::{Arguments, Debug};
use std::hint::black_box;
use std::ops::Range;

/// One case on its way: its random numbers, what was seen so far, and what differed.
pub struct Compare {
    pub random: Random,
    pub table: Table,
    pub differences: Vec<Difference>,
}

/// What differed, in words, and the inputs of that call.
pub struct Difference {
    pub text: String,
    pub inputs: Vec<(&'static str, Vec<u8>)>,
}

/// Bytes that a call must leave as they are.
pub struct Input<'a> {
    name: &'static str,
    bytes: &'a [u8],
    copy: Vec<u8>,
}

impl<'a> Input<'a> {
    fn new(name: &'static str, bytes: &'a [u8]) -> Input<'a> {
        Input { name, bytes, copy: bytes.to_vec() }
    }

    fn shorts(name: &'static str, list: &'a [u16]) -> Input<'a> {
        // Any u16 is two bytes, and bytes stand anywhere.
        let bytes = unsafe { std::slice::from_raw_parts(list.as_ptr().cast::<u8>(), 2 * list.len()) };
        Input::new(name, bytes)
    }

    fn wrong(&self) -> Option<String> {
        (black_box(self.bytes) != self.copy).then(|| format!("{}: an input was changed", self.name))
    }
}

/// The number that the model comes back with, and both answers.
struct Told<T> {
    operation: Operation,
    number: u32,
    library: T,
    model: T,
}

impl Compare {
    pub fn new(seed: u64, case: u64) -> Compare {
        Compare { random: Random::of_case(seed, case), table: Table::default(), differences: Vec::new() }
    }

    /// Counts a call and notes whatever differs. `words` are the arguments that are no buffers.
    fn judge<T: PartialEq + Debug>(
        &mut self,
        told: Told<T>,
        buffers: &[Option<String>],
        inputs: &[Input],
        words: Arguments,
    ) {
        self.table.count(told.operation, told.number);
        let changed = inputs.iter().filter_map(Input::wrong);
        let mut faults: Vec<String> = buffers.iter().flatten().cloned().chain(changed).collect();
        if told.library != told.model {
            faults.insert(0, format!("library {:?}\n  model   {:?}", told.library, told.model));
        }
        if !faults.is_empty() {
            let text = format!("{} {words}\n  {}", told.operation.name(), faults.join("\n  "));
            let inputs = inputs.iter().map(|input| (input.name, input.copy.clone())).collect();
            self.differences.push(Difference { text, inputs });
        }
    }

    /// Notes that a law does not hold.
    pub fn note(&mut self, text: String, inputs: Vec<(&'static str, Vec<u8>)>) {
        self.differences.push(Difference { text, inputs });
    }
}

fn done(length: usize) -> Answer {
    Answer { number: 0, record: 0, offset: 0, length: length as u64 }
}

fn refused(refusal: &Refusal) -> Answer {
    Answer { number: refusal.number, record: refusal.record, offset: refusal.offset as u64, length: 0 }
}

/// The answer to a call that has no result.
fn checked(result: Result<(), Refusal>) -> Answer {
    match result {
        Ok(()) => done(0),
        Err(refusal) => refused(&refusal),
    }
}

/// The answer to a call whose result is bytes, and the bytes that it should have written.
fn written(result: &Result<Vec<u8>, Refusal>) -> (Answer, &[u8]) {
    match result {
        Ok(bytes) => (done(bytes.len()), bytes),
        Err(refusal) => (refused(refusal), &[]),
    }
}

fn part(place: &Range<usize>) -> Part {
    Part { start: place.start as u64, length: place.len() as u64 }
}

/// The part of a refusal.
const NO_PART: Part = Part { start: 0, length: 0 };
