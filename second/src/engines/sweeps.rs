//! The sweeps on rows of 64 bits, the method of the proved library: with lists searched as there, or with places filled once.

use super::ending::{ending, Ended};
use super::guards::{readable, received, roomy};
use super::ranks::{Filled, Ranks, Searched};
use super::view::View;
use crate::model::{Refusal, MOST_TRAINEES};

/// A row of marks for each trainee, by the trainee's own number.
pub type Rows = [u64; MOST_TRAINEES + 1];

/// A reason's number and its witness.
type Reason = (u16, u16);

/// What solving answers besides the table and the record.
#[derive(Clone, Copy, Debug, PartialEq, Eq)]
pub struct Ruled {
    pub n: u16,
    pub strikes: u16,
    pub ended: Ended,
}

/// Solves with lists searched at each question.
pub fn solve_searching(
    view: View,
    table: &mut [u16],
    record: &mut [u16],
) -> Result<Ruled, Refusal> {
    ready(&view, table, record)?;
    Ok(solve_by(&view, &Searched(view), table, record))
}

/// Solves with all places filled once.
pub fn solve_ranked(view: View, table: &mut [u16], record: &mut [u16]) -> Result<Ruled, Refusal> {
    ready(&view, table, record)?;
    Ok(solve_by(&view, &Filled::of(&view), table, record))
}

/// Refusals 1, 8 and 7.
pub fn ready(view: &View, table: &[u16], record: &[u16]) -> Result<(), Refusal> {
    roomy(table, record)?;
    readable(view)?;
    received(view)
}

/// The sweeps and the ending over full tables.
fn solve_by<R: Ranks>(view: &View, ranks: &R, table: &mut [u16], record: &mut [u16]) -> Ruled {
    let mut board = Board::new(view, ranks);
    let mut strikes = 0;
    loop {
        let before = strikes;
        strikes = board.sweep(record, strikes);
        if strikes == before {
            break;
        }
    }
    Ruled {
        n: view.heads[1],
        strikes: strikes as u16,
        ended: ending(view, ranks, &board.rows, table),
    }
}

/// The orders and the struck places.
pub struct Board<'a, R> {
    pub view: &'a View<'a>,
    pub ranks: &'a R,
    pub held: Rows,
    pub barred: Rows,
    pub rows: Rows,
}

impl<'a, R: Ranks> Board<'a, R> {
    /// Before the first strike: what is past a list's end or not mutual is marked.
    pub fn new(view: &'a View<'a>, ranks: &'a R) -> Self {
        let (mut held, mut barred) = ([0; MOST_TRAINEES + 1], [0; MOST_TRAINEES + 1]);
        for order in view.orders() {
            let rows = if order.held { &mut held } else { &mut barred };
            rows[order.trainee] |= 1 << (order.depot - 1);
        }
        let mut rows = [0; MOST_TRAINEES + 1];
        for (trainee, row) in rows.iter_mut().enumerate().take(view.n() + 1).skip(1) {
            *row = start_row(view, ranks, trainee);
        }
        Board {
            view,
            ranks,
            held,
            barred,
            rows,
        }
    }

    /// One sweep: the number of strikes after it.
    fn sweep(&mut self, record: &mut [u16], mut strikes: usize) -> usize {
        for trainee in 1..=self.view.n() {
            for (place, &depot) in self.view.wishes(trainee).iter().enumerate() {
                if self.rows[trainee] >> place & 1 == 1 {
                    continue;
                }
                if let Some((reason, witness)) = self.lowest_reason(trainee, depot.into()) {
                    self.rows[trainee] |= 1 << place;
                    let cells = [trainee as u16, depot, reason, witness];
                    record[4 * strikes..4 * strikes + 4].copy_from_slice(&cells);
                    strikes += 1;
                }
            }
        }
        strikes
    }

    /// The lowest reason for which a pair may be struck, with its smallest witness.
    fn lowest_reason(&self, trainee: usize, depot: usize) -> Option<Reason> {
        let own = 1 << (depot - 1);
        if self.barred[trainee] & own != 0 {
            return Some((1, 0));
        }
        let elsewhere = self.held[trainee] & !own;
        if elsewhere != 0 {
            return Some((2, elsewhere.trailing_zeros() as u16 + 1));
        }
        let above = self.ranks.of_trainee(depot, trainee) - 1;
        let (settled, passed) = self.pass(depot, &self.view.ranking(depot)[..above]);
        if self.view.posts(depot) <= settled {
            return Some((3, 0));
        }
        passed.map(|witness| (4, witness))
    }

    /// A pass along a part of a depot's list: how many have everything above the depot struck, and the smallest who has everything down to it struck.
    pub fn pass(&self, depot: usize, part: &[u16]) -> (usize, Option<u16>) {
        let mut settled = 0;
        let mut passed = None;
        for &other in part {
            let left = self.places_left(other.into(), depot);
            settled += usize::from(left <= 1);
            if left == 0 && passed.is_none_or(|smallest| other < smallest) {
                passed = Some(other);
            }
        }
        (settled, passed)
    }

    /// How far a depot's place stands behind the places that are struck from the best on: 0 and 1 are struck down to it and above it.
    pub fn places_left(&self, trainee: usize, depot: usize) -> usize {
        let place = self.ranks.of_depot(trainee, depot);
        if place == 0 {
            return usize::MAX;
        }
        place.saturating_sub(first_left(self.rows[trainee]))
    }
}

/// The row of a trainee before the first strike.
fn start_row<R: Ranks>(view: &View, ranks: &R, trainee: usize) -> u64 {
    let wishes = view.wishes(trainee);
    let past_end = u64::MAX.checked_shl(wishes.len() as u32).unwrap_or(0);
    wishes
        .iter()
        .enumerate()
        .fold(past_end, |row, (place, &depot)| {
            let stranger = ranks.of_trainee(depot.into(), trainee) == 0;
            row | u64::from(stranger) << place
        })
}

/// The best place left of a row, 64 for none.
pub fn first_left(row: u64) -> usize {
    row.trailing_ones() as usize
}
