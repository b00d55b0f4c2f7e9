//! What a placement's lists mean once everything was received: the mutual pairs, best first on each side.

use crate::model::{Placement, Refusal};
use std::ops::RangeInclusive;

/// For each trainee the depots, and for each depot the posts and the trainees, that rank back: a pair that isn't mutual counts for nothing.
pub struct Market {
    wishes: Vec<Vec<usize>>,
    rankings: Vec<Vec<usize>>,
    posts: Vec<usize>,
}

impl Market {
    /// The market of a placement, or refusal 7 at the first line that lacks something.
    pub fn of(placement: &Placement) -> Result<Market, Refusal> {
        let mut line = 1;
        let mut trainee_lists = Vec::new();
        for list in &placement.trainees {
            line += 1;
            trainee_lists.push(list.as_ref().ok_or(Refusal { number: 7, line })?);
        }
        let mut depot_lists = Vec::new();
        let mut posts = Vec::new();
        for depot in &placement.depots {
            line += 1;
            let (Some(number), Some(list)) = (depot.posts, &depot.list) else {
                return Err(Refusal { number: 7, line });
            };
            depot_lists.push(list);
            posts.push(number);
        }
        Ok(Market {
            wishes: returned(&trainee_lists, &depot_lists),
            rankings: returned(&depot_lists, &trainee_lists),
            posts,
        })
    }

    /// All trainees, in order.
    pub fn trainees(&self) -> RangeInclusive<usize> {
        1..=self.wishes.len()
    }

    /// All depots, in order.
    pub fn depots(&self) -> RangeInclusive<usize> {
        1..=self.posts.len()
    }

    /// The posts of a depot.
    pub fn posts(&self, depot: usize) -> usize {
        self.posts[depot - 1]
    }

    /// The depots of a trainee's mutual pairs, best first.
    pub fn wishes(&self, trainee: usize) -> &[usize] {
        &self.wishes[trainee - 1]
    }

    /// The trainees of a depot's mutual pairs, best first.
    pub fn ranking(&self, depot: usize) -> &[usize] {
        &self.rankings[depot - 1]
    }

    /// Whether each ranks the other.
    pub fn mutual(&self, trainee: usize, depot: usize) -> bool {
        self.trainees().contains(&trainee) && self.wishes(trainee).contains(&depot)
    }

    /// The mutual depots that a trainee ranks above this mutual one.
    pub fn wishes_above(&self, trainee: usize, depot: usize) -> &[usize] {
        before(self.wishes(trainee), depot)
    }

    /// The mutual trainees whom a depot ranks above this mutual one.
    pub fn ranked_above(&self, depot: usize, trainee: usize) -> &[usize] {
        before(self.ranking(depot), trainee)
    }
}

/// The entries of each list whose own list names this one in return.
fn returned(lists: &[&Vec<usize>], others: &[&Vec<usize>]) -> Vec<Vec<usize>> {
    let kept = |(at, list): (usize, &&Vec<usize>)| {
        let names_back = |entry: &&usize| others[**entry - 1].contains(&(at + 1));
        list.iter().filter(names_back).copied().collect()
    };
    lists.iter().enumerate().map(kept).collect()
}

/// What stands before an entry of a list.
fn before(list: &[usize], entry: usize) -> &[usize] {
    let place = list.iter().position(|&other| other == entry);
    &list[..place.expect("the entry is on the list")]
}
