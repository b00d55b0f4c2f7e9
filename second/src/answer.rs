//! What the program prints for an input.

use crate::model::Refusal;
use crate::{placement_text, ruling_text, solver};

/// The ruling of the placement that the input says, or one line that refuses it.
pub fn answer(input: &[u8]) -> Vec<u8> {
    let ruling = placement_text::read(input).and_then(|placement| solver::solve(&placement));
    match ruling.and_then(|ruling| ruling_text::write(&ruling)) {
        Ok(text) => text,
        Err(refusal) => refused(refusal),
    }
}

/// The line of a refusal.
fn refused(refusal: Refusal) -> Vec<u8> {
    format!("refused\t{}\t{}\n", refusal.number, refusal.line).into_bytes()
}
