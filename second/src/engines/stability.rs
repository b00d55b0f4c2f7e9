//! The stability test over lent tables: the trainees of each depot and its worst rank are noted once.

use super::ending::counts;
use super::ranks::Ranks;
use super::view::View;
use crate::model::MOST_DEPOTS;

/// What keeps a table from being stable; a pair is a trainee and a depot.
#[derive(Clone, Copy, Debug, PartialEq, Eq)]
pub enum Unstable {
    NotMutual(u16),
    OverPosts(u16),
    Blocking(u16, u16),
}

/// The test of the used cells of a table over full tables.
pub fn tested<R: Ranks>(view: &View, ranks: &R, table: &[u16]) -> Result<(), Unstable> {
    let placed = || table.iter().enumerate().map(|(at, &j)| (at + 1, j.into()));
    let stranger = |&(i, j): &(usize, usize)| j != 0 && !is_mutual(ranks, i, j);
    if let Some((i, _)) = placed().find(stranger) {
        return Err(Unstable::NotMutual(i as u16));
    }
    let counts = counts(table);
    if let Some(j) = (1..=view.m()).find(|&j| counts[j] > view.posts(j)) {
        return Err(Unstable::OverPosts(j as u16));
    }
    let mut worsts = [0; MOST_DEPOTS + 1];
    for (i, j) in placed().filter(|&(_, j)| j != 0) {
        worsts[j] = worsts[j].max(ranks.of_trainee(j, i));
    }
    for (i, own) in placed() {
        let wishes = view.wishes(i);
        let above = if own == 0 {
            wishes.len()
        } else {
            ranks.of_depot(i, own) - 1
        };
        let takes = |&&j: &&u16| {
            let j = usize::from(j);
            let rank = ranks.of_trainee(j, i);
            rank != 0 && (counts[j] < view.posts(j) || rank < worsts[j])
        };
        if let Some(&j) = wishes[..above].iter().find(takes) {
            return Err(Unstable::Blocking(i as u16, j));
        }
    }
    Ok(())
}

/// Whether each ranks the other.
pub fn is_mutual<R: Ranks>(ranks: &R, trainee: usize, depot: usize) -> bool {
    ranks.of_depot(trainee, depot) != 0 && ranks.of_trainee(depot, trainee) != 0
}
