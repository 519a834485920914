//! Keys, lots, spans and the light count.

use super::{Compare, Told};
use crate::model::{keys, lots};
use crate::operation::Operation;
use anowhetele::raw::{self, Coordinates, Inside, Key, Lot, Span};

impl Compare {
    pub fn key_join(&mut self, x: i32, y: i32, z: i32) {
        let library = unsafe { raw::anow_key_join(x, y, z) };
        let model = match keys::join(x, y, z) {
            Ok(key) => Key { number: 0, key },
            Err(refusal) => Key { number: refusal.number, key: 0 },
        };
        let told = Told { operation: Operation::KeyJoin, number: model.number, library, model };
        self.judge(told, &[], &[], format_args!("{x} {y} {z}"));
    }

    pub fn key_split(&mut self, key: i64) {
        let library = unsafe { raw::anow_key_split(key) };
        let model = match keys::split(key) {
            Ok([x, y, z]) => Coordinates { number: 0, x, y, z },
            Err(refusal) => Coordinates { number: refusal.number, x: 0, y: 0, z: 0 },
        };
        let told = Told { operation: Operation::KeySplit, number: model.number, library, model };
        self.judge(told, &[], &[], format_args!("{key}"));
    }

    pub fn lot_has(&mut self, lot: Lot, x: i32, y: i32, z: i32) {
        let library = unsafe { raw::anow_lot_has(lot, x, y, z) };
        let model = match lots::lot_has(lot, x, y, z) {
            Ok(inside) => Inside { number: 0, inside: u32::from(inside) },
            Err(refusal) => Inside { number: refusal.number, inside: 0 },
        };
        let told = Told { operation: Operation::LotHas, number: model.number, library, model };
        self.judge(told, &[], &[], format_args!("{lot:?} {x} {y} {z}"));
    }

    pub fn span_has(&mut self, span: Span, second: u32) {
        let library = unsafe { raw::anow_span_has(span, second) };
        let model = match lots::span_has(span, second) {
            Ok(inside) => Inside { number: 0, inside: u32::from(inside) },
            Err(refusal) => Inside { number: refusal.number, inside: 0 },
        };
        let told = Told { operation: Operation::SpanHas, number: model.number, library, model };
        self.judge(told, &[], &[], format_args!("{span:?} {second}"));
    }

    pub fn light_count(&mut self, lighting: u16) {
        let library = unsafe { raw::anow_light_count(lighting) };
        let model = lots::light_count(lighting);
        let told = Told { operation: Operation::LightCount, number: 0, library, model };
        self.judge(told, &[], &[], format_args!("{lighting:#06x}"));
    }
}
