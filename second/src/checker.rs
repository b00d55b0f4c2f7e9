//! The checker: replays a record in any order and with any witness that fits.

use crate::board::Board;
use crate::limits::{legal_placement, legal_ruling};
use crate::market::Market;
use crate::model::*;

/// What the checker answers; steps are numbered from 1, and the ending is the one after the strikes.
#[derive(Clone, Copy, Debug, PartialEq, Eq)]
pub enum Checked {
    Accepted,
    NotAllowed(usize),
}

/// Whether every step of a ruling is allowed.
pub fn check(placement: &Placement, ruling: &Ruling) -> Result<Checked, Refusal> {
    let same_n = ruling.n == placement.trainees.len();
    if !legal_placement(placement) || !legal_ruling(ruling) || !same_n {
        return Err(refusal(8));
    }
    let market = Market::of(placement)?;
    let mut board = Board::new(&market, &placement.orders);
    for (at, strike) in ruling.strikes.iter().enumerate() {
        let (trainee, depot) = (strike.trainee, strike.depot);
        let allowed = market.mutual(trainee, depot)
            && !board.is_struck(trainee, depot)
            && board.applies(trainee, depot, strike.reason);
        if !allowed {
            return Ok(Checked::NotAllowed(at + 1));
        }
        board.strike(strike);
    }
    Ok(if ending_fits(&board, &ruling.ending) {
        Checked::Accepted
    } else {
        Checked::NotAllowed(ruling.strikes.len() + 1)
    })
}

/// Whether the ending is one that the strikes allow.
fn ending_fits(board: &Board, ending: &Ending) -> bool {
    let left = board.left_table();
    match ending {
        Ending::Placed(table) => *table == left && board.respects(&left),
        Ending::NoneHeld(trainee, depot) => board.shows_held(*trainee, *depot),
        Ending::NoneRoom(trainee, depot) => board.shows_room(&left, *trainee, *depot),
    }
}
