//! The checker over lent tables: the strikes are replayed on rows, then the ending is tried.

use super::ending::{counts, left_table, Ended};
use super::guards::{readable, received, roomy};
use super::ranks::{Filled, Ranks, Searched};
use super::stability::{is_mutual, tested};
use super::sweeps::{Board, Ruled};
use super::view::View;
use crate::model::{refusal, Refusal, MOST_DEPOTS, MOST_STRIKES};

/// Checks with lists searched at each question: none, or the first step that isn't allowed.
pub fn check_searching(
    view: View,
    ruled: &Ruled,
    table: &[u16],
    record: &[u16],
) -> Result<Option<u16>, Refusal> {
    guard(&view, ruled, table, record)?;
    Ok(check_by(&view, &Searched(view), ruled, table, record))
}

/// Checks with all places filled once.
pub fn check_ranked(
    view: View,
    ruled: &Ruled,
    table: &[u16],
    record: &[u16],
) -> Result<Option<u16>, Refusal> {
    guard(&view, ruled, table, record)?;
    Ok(check_by(&view, &Filled::of(&view), ruled, table, record))
}

/// Refusals 1, 8 and 7.
fn guard(view: &View, ruled: &Ruled, table: &[u16], record: &[u16]) -> Result<(), Refusal> {
    roomy(table, record)?;
    readable(view)?;
    if !legal(view, ruled, table, record) {
        return Err(refusal(8));
    }
    received(view)
}

/// Whether a reader of rulings could have read this, for the placement's n.
fn legal(view: &View, ruled: &Ruled, table: &[u16], record: &[u16]) -> bool {
    let n = ruled.n;
    if n != view.heads[1] || usize::from(ruled.strikes) > MOST_STRIKES {
        return false;
    }
    let most = MOST_DEPOTS as u16;
    let pair = |i: u16, j: u16| (1..=n).contains(&i) && (1..=most).contains(&j);
    let strike = |cells: &[u16]| {
        let witness = match cells[2] {
            1 | 3 => 0..=0,
            2 => 1..=most,
            4 => 1..=n,
            _ => return false,
        };
        pair(cells[0], cells[1]) && witness.contains(&cells[3])
    };
    let ending = match ruled.ended {
        Ended::Placed => table[..n.into()].iter().all(|&depot| depot <= most),
        Ended::NoneHeld(i, j) | Ended::NoneRoom(i, j) => pair(i, j),
    };
    let used = 4 * usize::from(ruled.strikes);
    ending && record[..used].chunks_exact(4).all(strike)
}

/// The strikes in turn, then the ending.
fn check_by<R: Ranks>(
    view: &View,
    ranks: &R,
    ruled: &Ruled,
    table: &[u16],
    record: &[u16],
) -> Option<u16> {
    let mut board = Board::new(view, ranks);
    let used = 4 * usize::from(ruled.strikes);
    let stopped = record[..used]
        .chunks_exact(4)
        .position(|cells| !strike(&mut board, cells));
    if let Some(at) = stopped {
        return Some(at as u16 + 1);
    }
    let fits = match ruled.ended {
        Ended::Placed => placed_fits(&board, &table[..view.n()]),
        Ended::NoneHeld(i, j) => held_fits(&board, i.into(), j.into()),
        Ended::NoneRoom(i, j) => room_fits(&board, i.into(), j.into()),
    };
    (!fits).then_some(ruled.strikes + 1)
}

/// Strikes a pair if that is allowed now.
fn strike<R: Ranks>(board: &mut Board<R>, cells: &[u16]) -> bool {
    let (trainee, depot, witness) = (cells[0].into(), cells[1].into(), cells[3].into());
    let Some(place) = open_place(board, trainee, depot) else {
        return false;
    };
    let fits = match cells[2] {
        1 => board.barred[trainee] >> (depot - 1) & 1 == 1,
        2 => witness != depot && board.held[trainee] >> (witness - 1) & 1 == 1,
        3 => board.view.posts(depot) <= board.pass(depot, above(board, depot, trainee)).0,
        _ => {
            above(board, depot, trainee).contains(&cells[3])
                && board.places_left(witness, depot) == 0
        }
    };
    board.rows[trainee] |= u64::from(fits) << place;
    fits
}

/// The place of a pair that is mutual and not struck.
fn open_place<R: Ranks>(board: &Board<R>, trainee: usize, depot: usize) -> Option<usize> {
    let place = board.ranks.of_depot(trainee, depot).checked_sub(1)?;
    (board.rows[trainee] >> place & 1 == 0).then_some(place)
}

/// The part of a depot's list above a trainee on it.
fn above<'a, R: Ranks>(board: &Board<'a, R>, depot: usize, trainee: usize) -> &'a [u16] {
    &board.view.ranking(depot)[..board.ranks.of_trainee(depot, trainee) - 1]
}

/// Placed: the table is the left table, stable, with every held pair and no barred one.
fn placed_fits<R: Ranks>(board: &Board<R>, table: &[u16]) -> bool {
    let obeys = |(at, &depot): (usize, &u16)| {
        let own = match depot {
            0 => 0,
            depot => 1 << (depot - 1),
        };
        board.barred[at + 1] & own == 0 && board.held[at + 1] & !own == 0
    };
    left_table(board.view, &board.rows).starts_with(table)
        && tested(board.view, board.ranks, table).is_ok()
        && table.iter().enumerate().all(obeys)
}

/// Kind 1: the pair is held, and is struck or not mutual.
fn held_fits<R: Ranks>(board: &Board<R>, trainee: usize, depot: usize) -> bool {
    board.held[trainee] >> (depot - 1) & 1 == 1 && open_place(board, trainee, depot).is_none()
}

/// Kind 2: the left table exceeds no posts, and the mutual pair's depot, down to which all is struck, has room in it.
fn room_fits<R: Ranks>(board: &Board<R>, trainee: usize, depot: usize) -> bool {
    let view = board.view;
    let left = left_table(view, &board.rows);
    let counts = counts(&left[..view.n()]);
    (1..=view.m()).all(|other| counts[other] <= view.posts(other))
        && is_mutual(board.ranks, trainee, depot)
        && board.places_left(trainee, depot) == 0
        && counts[depot] < view.posts(depot)
}
