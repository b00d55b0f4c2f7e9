//! Fast Rust over the lent tables of the proved library, to measure that one beside. None of it is a reference: each engine is itself held against
//! the second implementation.

pub mod checker;
pub mod cursor;
pub mod ending;
pub mod guards;
pub mod queue;
pub mod ranks;
pub mod reader;
pub mod stability;
pub mod sweeps;
pub mod view;
pub mod whole;
pub mod writer;
