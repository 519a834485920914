//! Rate sheets: checking, and the bills of a block and of a sheet, which give what the library said.

use super::{checked, done, refused, Compare, Input, Told};
use crate::model::{prices, Refusal};
use crate::operation::Operation;
use anowhetele::raw::{self, Bill, Lot, Span};

impl Compare {
    pub fn rates_check(&mut self, rates: &[u8]) {
        let inputs = [Input::new("rates", rates)];
        let library = unsafe { raw::anow_rates_check(rates.as_ptr(), rates.len()) };
        let model = checked(prices::check(rates));
        let told = Told { operation: Operation::RatesCheck, number: model.number, library, model };
        self.judge(told, &[], &inputs, format_args!(""));
    }

    pub fn price_block(&mut self, key: i64, block: &[u8], rates: &[u8], (lot, span): (Lot, Span)) -> Bill {
        let inputs = [Input::new("block", block), Input::new("rates", rates)];
        let (bytes, length) = (block.as_ptr(), block.len());
        let library = unsafe { raw::anow_price_block(key, bytes, length, rates.as_ptr(), rates.len(), lot, span) };
        let model = told_bill(prices::price_block(key, block, rates, lot, span));
        let told = Told { operation: Operation::PriceBlock, number: model.answer.number, library, model };
        self.judge(told, &[], &inputs, format_args!("at {key} {lot:?} {span:?}"));
        library
    }

    pub fn price_sheet(&mut self, sheet: &[u8], rates: &[u8], (lot, span): (Lot, Span)) -> Bill {
        let inputs = [Input::new("sheet", sheet), Input::new("rates", rates)];
        let (bytes, length) = (sheet.as_ptr(), sheet.len());
        let library = unsafe { raw::anow_price_sheet(bytes, length, rates.as_ptr(), rates.len(), lot, span) };
        let model = told_bill(prices::price_sheet(sheet, rates, lot, span));
        let told = Told { operation: Operation::PriceSheet, number: model.answer.number, library, model };
        self.judge(told, &[], &inputs, format_args!("{lot:?} {span:?}"));
        library
    }
}

/// On a refusal the values beside the answer are 0.
fn told_bill(bill: Result<prices::Bill, Refusal>) -> Bill {
    match bill {
        Ok(bill) => Bill { answer: done(0), total: bill.total as u64, unpriced: bill.unpriced as u64 },
        Err(refusal) => Bill { answer: refused(&refusal), total: 0, unpriced: 0 },
    }
}
