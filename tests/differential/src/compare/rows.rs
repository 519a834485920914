//! The row questions. Each tells the length of the row, so that a caller can go on behind it; 0 after a refusal.

use super::{done, part, refused, Compare, Input, Told, NO_PART};
use crate::model::rows::{self, MetadataContent};
use crate::model::Refusal;
use crate::operation::Operation;
use anowhetele::raw::{self, MetadataRow, NameRow, ObjectRow, TimerRow};

impl Compare {
    pub fn row_name(&mut self, bytes: &[u8]) -> usize {
        let inputs = [Input::new("part", bytes)];
        let library = unsafe { raw::anow_row_name(bytes.as_ptr(), bytes.len()) };
        let model = match rows::ask_name(bytes) {
            Ok((row, length)) => NameRow { answer: done(length), id: row.id.into(), name: part(&row.name) },
            Err(refusal) => NameRow { answer: refused(&refusal), id: 0, name: NO_PART },
        };
        let told = Told { operation: Operation::RowName, number: model.answer.number, library, model };
        self.judge(told, &[], &inputs, format_args!(""));
        model.answer.length as usize
    }

    pub fn row_metadata(&mut self, version: u8, bytes: &[u8]) -> usize {
        let inputs = [Input::new("part", bytes)];
        let library = unsafe { raw::anow_row_metadata(version, bytes.as_ptr(), bytes.len()) };
        let model = told_metadata(rows::ask_metadata(version, bytes));
        let told = Told { operation: Operation::RowMetadata, number: model.answer.number, library, model };
        self.judge(told, &[], &inputs, format_args!("in version {version}"));
        model.answer.length as usize
    }

    pub fn row_object(&mut self, bytes: &[u8]) -> usize {
        let inputs = [Input::new("part", bytes)];
        let library = unsafe { raw::anow_row_object(bytes.as_ptr(), bytes.len()) };
        let model = match rows::ask_object(bytes) {
            Ok((row, length)) => ObjectRow {
                answer: done(length),
                kind: row.kind.into(),
                x: row.x,
                y: row.y,
                z: row.z,
                data: part(&row.data),
            },
            Err(refusal) => ObjectRow { answer: refused(&refusal), kind: 0, x: 0, y: 0, z: 0, data: NO_PART },
        };
        let told = Told { operation: Operation::RowObject, number: model.answer.number, library, model };
        self.judge(told, &[], &inputs, format_args!(""));
        model.answer.length as usize
    }

    pub fn row_timer(&mut self, bytes: &[u8]) -> usize {
        let inputs = [Input::new("part", bytes)];
        let library = unsafe { raw::anow_row_timer(bytes.as_ptr(), bytes.len()) };
        let model = match rows::ask_timer(bytes) {
            Ok((row, length)) => TimerRow {
                answer: done(length),
                position: row.position.into(),
                timeout: row.timeout,
                elapsed: row.elapsed,
            },
            Err(refusal) => TimerRow { answer: refused(&refusal), position: 0, timeout: 0, elapsed: 0 },
        };
        let told = Told { operation: Operation::RowTimer, number: model.answer.number, library, model };
        self.judge(told, &[], &inputs, format_args!(""));
        model.answer.length as usize
    }
}

/// What a version does not carry is 0.
fn told_metadata(asked: Result<(rows::MetadataRow, usize), Refusal>) -> MetadataRow {
    let mut told = MetadataRow {
        answer: done(0),
        position: 0,
        kind: 0,
        variables: 0,
        content: NO_PART,
        variable_rows: NO_PART,
        inventory: NO_PART,
    };
    let (row, length) = match asked {
        Ok(row) => row,
        Err(refusal) => return MetadataRow { answer: refused(&refusal), ..told },
    };
    told.answer = done(length);
    told.position = row.position.into();
    match row.content {
        MetadataContent::Old(old) => {
            told.kind = old.kind.into();
            told.content = part(&old.content);
        }
        MetadataContent::New(new) => {
            told.variables = new.variables;
            told.variable_rows = part(&new.variable_rows);
            told.inventory = part(&new.inventory);
        }
    }
    told
}
