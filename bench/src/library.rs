//! Ours: the library's C functions, called as a host calls them.

use crate::bills::write_bill;
use crate::merging::Pair;
use crate::pricing::Priced;
use anowhetele::raw::{
    anow_price_block, anow_price_sheet, anow_tally_block, anow_tally_merge, anow_tally_sheet, Answer, Bill,
};
use anowhetele::{Lot, Span};

fn length(answer: Answer) -> Option<usize> {
    (answer.number == 0).then_some(answer.length as usize)
}

pub fn sheet(sheet: &[u8], out: &mut [u8], spare: &mut [u8]) -> Option<usize> {
    let (o, s) = (out.as_mut_ptr(), spare.as_mut_ptr());
    length(unsafe {
        anow_tally_sheet(
            sheet.as_ptr(),
            sheet.len(),
            Lot::WORLD,
            Span::ALL_TIME,
            o,
            out.len(),
            s,
            spare.len(),
        )
    })
}

pub fn block(block: &[u8], out: &mut [u8], _: &mut [u8]) -> Option<usize> {
    let o = out.as_mut_ptr();
    length(unsafe { anow_tally_block(0, block.as_ptr(), block.len(), Lot::WORLD, Span::ALL_TIME, o, out.len()) })
}

pub fn merge(pair: &Pair, out: &mut [u8], _: &mut [u8]) -> Option<usize> {
    let (a, b) = (&pair.a, &pair.b);
    length(unsafe { anow_tally_merge(a.as_ptr(), a.len(), b.as_ptr(), b.len(), out.as_mut_ptr(), out.len()) })
}

fn written(bill: Bill, out: &mut [u8]) -> Option<usize> {
    (bill.answer.number == 0).then(|| write_bill(bill.total, bill.unpriced, out))
}

pub fn price_sheet(priced: &Priced, out: &mut [u8], _: &mut [u8]) -> Option<usize> {
    let (sheet, rates) = (&priced.bytes, &priced.rates);
    let (s, r) = (sheet.as_ptr(), rates.as_ptr());
    let bill = unsafe { anow_price_sheet(s, sheet.len(), r, rates.len(), Lot::WORLD, Span::ALL_TIME) };
    written(bill, out)
}

pub fn price_block(priced: &Priced, out: &mut [u8], _: &mut [u8]) -> Option<usize> {
    let (block, rates) = (&priced.bytes, &priced.rates);
    let (b, r) = (block.as_ptr(), rates.as_ptr());
    let bill = unsafe { anow_price_block(0, b, block.len(), r, rates.len(), Lot::WORLD, Span::ALL_TIME) };
    written(bill, out)
}

/// The tally of what is priced, of a sheet and of a block.
pub fn sheet_beside(priced: &Priced, out: &mut [u8], spare: &mut [u8]) -> Option<usize> {
    sheet(&priced.bytes, out, spare)
}

pub fn block_beside(priced: &Priced, out: &mut [u8], spare: &mut [u8]) -> Option<usize> {
    block(&priced.bytes, out, spare)
}
