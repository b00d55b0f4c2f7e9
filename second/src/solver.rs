//! The solver: sweeps that strike at once what may be struck, until one strikes nothing.

use crate::board::Board;
use crate::limits::legal_placement;
use crate::market::Market;
use crate::model::*;

/// The ruling of a placement.
pub fn solve(placement: &Placement) -> Result<Ruling, Refusal> {
    if !legal_placement(placement) {
        return Err(refusal(8));
    }
    let market = Market::of(placement)?;
    let mut board = Board::new(&market, &placement.orders);
    let mut strikes = Vec::new();
    loop {
        let before = strikes.len();
        sweep(&mut board, &mut strikes);
        if strikes.len() == before {
            break;
        }
    }
    Ok(Ruling {
        n: placement.trainees.len(),
        strikes,
        ending: ending(&board),
    })
}

/// One sweep: trainees upward, each list from its best place.
fn sweep(board: &mut Board, strikes: &mut Vec<Strike>) {
    let market = board.market;
    for trainee in market.trainees() {
        for &depot in market.wishes(trainee) {
            if board.is_struck(trainee, depot) {
                continue;
            }
            if let Some(reason) = board.lowest_reason(trainee, depot) {
                let strike = Strike {
                    trainee,
                    depot,
                    reason,
                };
                board.strike(&strike);
                strikes.push(strike);
            }
        }
    }
}

/// The ending once no sweep strikes any more: kind 1, else Placed, else kind 2.
fn ending(board: &Board) -> Ending {
    let lost = board
        .held()
        .find(|&(trainee, depot)| board.shows_held(trainee, depot));
    if let Some((trainee, depot)) = lost {
        return Ending::NoneHeld(trainee, depot);
    }
    let left = board.left_table();
    if board.respects(&left) {
        return Ending::Placed(left);
    }
    for depot in board.market.depots() {
        for trainee in board.market.trainees() {
            if board.shows_room(&left, trainee, depot) {
                return Ending::NoneRoom(trainee, depot);
            }
        }
    }
    panic!("no ending fits");
}
