//! The stability test of a table.

use crate::limits::{legal_placement, legal_table};
use crate::market::Market;
use crate::model::{refusal, Placement, Refusal};

/// What the test names: the first thing that keeps a table from being stable.
#[derive(Clone, Copy, Debug, PartialEq, Eq)]
pub enum Tested {
    Stable,
    NotMutual(usize),
    OverPosts(usize),
    Blocking(usize, usize),
}

/// The test of a table with the depot of each trainee, 0 for none.
pub fn test_table(placement: &Placement, table: &[usize]) -> Result<Tested, Refusal> {
    if !legal_placement(placement) || !legal_table(table, placement.trainees.len()) {
        return Err(refusal(8));
    }
    Ok(tested(&Market::of(placement)?, table))
}

/// The same over a market; held and barred pairs don't matter to it.
pub fn tested(market: &Market, table: &[usize]) -> Tested {
    for trainee in market.trainees() {
        let depot = table[trainee - 1];
        if depot != 0 && !market.mutual(trainee, depot) {
            return Tested::NotMutual(trainee);
        }
    }
    if let Some(depot) = first_over_posts(market, table) {
        return Tested::OverPosts(depot);
    }
    for trainee in market.trainees() {
        for &depot in market.wishes(trainee) {
            if blocks(market, table, trainee, depot) {
                return Tested::Blocking(trainee, depot);
            }
        }
    }
    Tested::Stable
}

/// The smallest depot that has more trainees than posts.
pub fn first_over_posts(market: &Market, table: &[usize]) -> Option<usize> {
    market
        .depots()
        .find(|&depot| number_at(table, depot) > market.posts(depot))
}

/// How many trainees a depot has in a table.
pub fn number_at(table: &[usize], depot: usize) -> usize {
    table.iter().filter(|&&other| other == depot).count()
}

/// Whether a mutual pair blocks a table of mutual pairs; a pair of the table doesn't, since no depot is above itself.
fn blocks(market: &Market, table: &[usize], trainee: usize, depot: usize) -> bool {
    let own = table[trainee - 1];
    let gains = own == 0 || market.wishes_above(trainee, own).contains(&depot);
    let ranking = market.ranking(depot);
    let better = market.ranked_above(depot, trainee).len();
    let has_worse = ranking[better + 1..]
        .iter()
        .any(|&other| table[other - 1] == depot);
    gains && (number_at(table, depot) < market.posts(depot) || has_worse)
}
