//! The whole program over an input and an output: a placement text in, its ruling text or a refusal out.

use super::reader::read;
use super::sweeps::Ruled;
use super::view::View;
use super::writer::{write_refusal, write_ruling};
use crate::layout::{ENTRIES, HEADS, ORDERS, RECORD, TABLE};
use crate::model::Refusal;

/// An engine's solver.
pub type Solve = fn(View, &mut [u16], &mut [u16]) -> Result<Ruled, Refusal>;

/// Answers an input by this solver: the number of bytes.
pub fn answer(input: &[u8], out: &mut [u8], solve: Solve) -> usize {
    let mut heads = [0; HEADS];
    let mut entries = [0; ENTRIES];
    let mut orders = [0; ORDERS];
    let mut table = [0; TABLE];
    let mut record = [0; RECORD];
    let ruled = read(input, &mut heads, &mut entries, &mut orders).and_then(|()| {
        let view = View {
            heads: &heads,
            entries: &entries,
            orders: &orders,
        };
        solve(view, &mut table, &mut record)
    });
    match ruled {
        Ok(ruled) => write_ruling(&ruled, &table, &record, out),
        Err(refusal) => write_refusal(refusal, out),
    }
}
