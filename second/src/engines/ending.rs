//! The ending of a solved placement, from rows of struck places.

use super::ranks::Ranks;
use super::sweeps::{first_left, Rows};
use super::view::View;
use crate::model::{MOST_DEPOTS, MOST_TRAINEES};

/// How a ruling ends; a pair is a trainee and a depot.
#[derive(Clone, Copy, Debug, PartialEq, Eq)]
pub enum Ended {
    Placed,
    NoneHeld(u16, u16),
    NoneRoom(u16, u16),
}

/// The ending; one that places lays the left table over the front of the lent one.
pub fn ending<R: Ranks>(view: &View, ranks: &R, rows: &Rows, table: &mut [u16]) -> Ended {
    if let Some((trainee, depot)) = first_broken(view, ranks, rows) {
        return Ended::NoneHeld(trainee, depot);
    }
    let left = left_table(view, rows);
    if let Some((trainee, depot)) = first_room(view, ranks, rows, &left) {
        return Ended::NoneRoom(trainee, depot);
    }
    let n = view.n();
    table[..n].copy_from_slice(&left[..n]);
    Ended::Placed
}

/// The first held pair that is struck or isn't mutual.
fn first_broken<R: Ranks>(view: &View, ranks: &R, rows: &Rows) -> Option<(u16, u16)> {
    let gone = |trainee: usize, depot: usize| {
        let place = ranks.of_depot(trainee, depot);
        place == 0 || rows[trainee] >> (place - 1) & 1 == 1
    };
    let mut held = view.orders().filter(|order| order.held);
    let broken = held.find(|order| gone(order.trainee, order.depot))?;
    Some((broken.trainee as u16, broken.depot as u16))
}

/// The depot at each trainee's best place left, 0 for none.
pub fn left_table(view: &View, rows: &Rows) -> [u16; MOST_TRAINEES] {
    let mut left = [0; MOST_TRAINEES];
    for (at, cell) in left[..view.n()].iter_mut().enumerate() {
        let wishes = view.wishes(at + 1);
        *cell = wishes.get(first_left(rows[at + 1])).copied().unwrap_or(0);
    }
    left
}

/// How many trainees a table gives each depot.
pub fn counts(table: &[u16]) -> [usize; MOST_DEPOTS + 1] {
    let mut counts = [0; MOST_DEPOTS + 1];
    for &depot in table {
        counts[usize::from(depot)] += 1;
    }
    counts
}

/// The smallest depot with room, and the smallest trainee who is past it.
fn first_room<R: Ranks>(
    view: &View,
    ranks: &R,
    rows: &Rows,
    left: &[u16; MOST_TRAINEES],
) -> Option<(u16, u16)> {
    let counts = counts(&left[..view.n()]);
    let past = |trainee: u16, depot: usize| {
        let place = ranks.of_depot(trainee.into(), depot);
        place != 0 && place <= first_left(rows[usize::from(trainee)])
    };
    (1..=view.m())
        .filter(|&depot| counts[depot] < view.posts(depot))
        .find_map(|depot| {
            let ranking = view.ranking(depot).iter().copied();
            let smallest = ranking.filter(|&trainee| past(trainee, depot)).min()?;
            Some((smallest, depot as u16))
        })
}
