//! Placements and rulings a second time: plain values, plain searches, nothing proved.
//! Its use is to be compared, byte for byte, with the proved library.

pub mod answer;
pub mod board;
pub mod checker;
pub mod damage;
pub mod engines;
pub mod exhaustive;
pub mod generate;
pub mod layout;
pub mod limits;
pub mod lines;
pub mod market;
pub mod model;
pub mod placement_text;
pub mod random;
pub mod ruling_text;
pub mod self_check;
pub mod solver;
pub mod stability;
