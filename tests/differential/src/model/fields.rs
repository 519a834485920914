//! The fields of some bytes, taken from the front. All numbers are MSB first ("The pieces").

use super::Refusal;
use std::ops::Range;

pub struct Fields<'a> {
    pub bytes: &'a [u8],
    /// Where the next field starts.
    pub at: usize,
}

impl<'a> Fields<'a> {
    pub fn new(bytes: &'a [u8]) -> Fields<'a> {
        Fields { bytes, at: 0 }
    }

    /// A run of counted bytes, as its place. 1: "bytes end inside a field", told at the field's start.
    pub fn run(&mut self, length: usize) -> Result<Range<usize>, Refusal> {
        if self.bytes.len() - self.at < length {
            return Err(Refusal::at(1, self.at));
        }
        let start = self.at;
        self.at += length;
        Ok(start..self.at)
    }

    pub fn u8(&mut self) -> Result<u8, Refusal> {
        let place = self.run(1)?;
        Ok(self.bytes[place.start])
    }

    pub fn u16(&mut self) -> Result<u16, Refusal> {
        let place = self.run(2)?;
        Ok(u16::from_be_bytes(self.bytes[place].try_into().unwrap()))
    }

    pub fn u32(&mut self) -> Result<u32, Refusal> {
        let place = self.run(4)?;
        Ok(u32::from_be_bytes(self.bytes[place].try_into().unwrap()))
    }

    pub fn u64(&mut self) -> Result<u64, Refusal> {
        let place = self.run(8)?;
        Ok(u64::from_be_bytes(self.bytes[place].try_into().unwrap()))
    }

    /// "s-numbers are two's complement".
    pub fn s32(&mut self) -> Result<i32, Refusal> {
        Ok(self.u32()? as i32)
    }

    pub fn s64(&mut self) -> Result<i64, Refusal> {
        Ok(self.u64()? as i64)
    }

    /// "a byte, width or list version fixed above has another value": the number that document 02's item 2 has for the
    /// field, told at its start.
    pub fn fixed_u8(&mut self, number: u32, value: u8) -> Result<(), Refusal> {
        self.u8_of(number, &[value]).map(|_| ())
    }

    /// The same of a byte that may have one of several values.
    pub fn u8_of(&mut self, number: u32, values: &[u8]) -> Result<u8, Refusal> {
        let start = self.at;
        let value = self.u8()?;
        if values.contains(&value) {
            Ok(value)
        } else {
            Err(Refusal::at(number, start))
        }
    }

    pub fn fixed_u16(&mut self, number: u32, value: u16) -> Result<(), Refusal> {
        let start = self.at;
        if self.u16()? == value {
            Ok(())
        } else {
            Err(Refusal::at(number, start))
        }
    }

    /// "An inventory runs through the first line that is exactly `EndInventory` with its newline." It is one field.
    pub fn inventory(&mut self) -> Result<Range<usize>, Refusal> {
        let start = self.at;
        let mut line_start = start;
        while let Some(length) = self.bytes[line_start..].iter().position(|&byte| byte == b'\n') {
            let line = &self.bytes[line_start..line_start + length];
            line_start += length + 1;
            if line == b"EndInventory" {
                self.at = line_start;
                return Ok(start..line_start);
            }
        }
        Err(Refusal::at(1, start))
    }

    pub fn are_at_end(&self) -> bool {
        self.at == self.bytes.len()
    }
}
