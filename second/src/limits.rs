//! What a reader could have read: everything else in memory is refused with number 8.

use crate::model::*;
use std::collections::BTreeSet;

/// Whether a reader of placements could have made this.
pub fn legal_placement(placement: &Placement) -> bool {
    let n = placement.trainees.len();
    let m = placement.depots.len();
    let depot_lists = placement.depots.iter().map(|depot| &depot.list);
    n <= MOST_TRAINEES
        && m <= MOST_DEPOTS
        && legal_side(placement.trainees.iter(), m)
        && legal_side(depot_lists, n)
        && placement
            .depots
            .iter()
            .all(|depot| depot.posts.is_none_or(|posts| posts <= MOST_POSTS))
        && placement.orders.len() <= MOST_ORDERS
        && placement
            .orders
            .iter()
            .all(|order| (1..=n).contains(&order.trainee) && (1..=m).contains(&order.depot))
}

/// Lists of distinct numbers from 1 to high, not too many entries together.
fn legal_side<'a>(lists: impl Iterator<Item = &'a Ranking>, high: usize) -> bool {
    let mut entries = 0;
    for list in lists.flatten() {
        let distinct: BTreeSet<_> = list.iter().collect();
        if distinct.len() != list.len() || list.iter().any(|entry| !(1..=high).contains(entry)) {
            return false;
        }
        entries += list.len();
    }
    entries <= MOST_ENTRIES
}

/// Whether a reader of rulings could have made this.
pub fn legal_ruling(ruling: &Ruling) -> bool {
    let pair =
        |trainee, depot| (1..=ruling.n).contains(&trainee) && (1..=MOST_DEPOTS).contains(&depot);
    let strikes = ruling.strikes.iter().all(|strike| {
        let witness = match strike.reason {
            Reason::Barred | Reason::PostsGone => true,
            Reason::HeldElsewhere(depot) => (1..=MOST_DEPOTS).contains(&depot),
            Reason::Passed(trainee) => (1..=ruling.n).contains(&trainee),
        };
        pair(strike.trainee, strike.depot) && witness
    });
    let ending = match &ruling.ending {
        Ending::Placed(table) => legal_table(table, ruling.n),
        Ending::NoneHeld(trainee, depot) | Ending::NoneRoom(trainee, depot) => {
            pair(*trainee, *depot)
        }
    };
    ruling.n <= MOST_TRAINEES && ruling.strikes.len() <= MOST_STRIKES && strikes && ending
}

/// Whether a table has a cell for each of n trainees that a reader could have read.
pub fn legal_table(table: &[usize], n: usize) -> bool {
    table.len() == n && table.iter().all(|depot| *depot <= MOST_DEPOTS)
}
