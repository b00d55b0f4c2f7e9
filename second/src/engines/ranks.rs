//! Two ways to the place of an entry on a list: a search, and a table filled once.

use super::view::View;
use crate::model::{MOST_DEPOTS, MOST_TRAINEES};

/// Places on lists, counted from 1; 0 where an entry is not there.
pub trait Ranks {
    /// The place of a depot on a trainee's list.
    fn of_depot(&self, trainee: usize, depot: usize) -> usize;
    /// The place of a trainee on a depot's list.
    fn of_trainee(&self, depot: usize, trainee: usize) -> usize;
}

/// Each question searches a list, as the proved library does.
pub struct Searched<'a>(pub View<'a>);

impl Ranks for Searched<'_> {
    fn of_depot(&self, trainee: usize, depot: usize) -> usize {
        place_on(self.0.wishes(trainee), depot)
    }

    fn of_trainee(&self, depot: usize, trainee: usize) -> usize {
        place_on(self.0.ranking(depot), trainee)
    }
}

/// The place of an entry on a list.
fn place_on(list: &[u16], entry: usize) -> usize {
    let entry = entry as u16;
    let place = list.iter().position(|&other| other == entry);
    place.map_or(0, |place| place + 1)
}

/// All places, filled once.
pub struct Filled {
    depots: Vec<[u8; MOST_DEPOTS + 1]>,
    trainees: Vec<[u16; MOST_TRAINEES + 1]>,
}

impl Filled {
    /// The places on all lists.
    pub fn of(view: &View) -> Filled {
        let mut depots = vec![[0; MOST_DEPOTS + 1]; view.n() + 1];
        for (trainee, row) in depots.iter_mut().enumerate().skip(1) {
            for (at, &depot) in view.wishes(trainee).iter().enumerate() {
                row[usize::from(depot)] = at as u8 + 1;
            }
        }
        let mut trainees = vec![[0; MOST_TRAINEES + 1]; view.m() + 1];
        for (depot, row) in trainees.iter_mut().enumerate().skip(1) {
            for (at, &trainee) in view.ranking(depot).iter().enumerate() {
                row[usize::from(trainee)] = at as u16 + 1;
            }
        }
        Filled { depots, trainees }
    }
}

impl Ranks for Filled {
    fn of_depot(&self, trainee: usize, depot: usize) -> usize {
        self.depots[trainee][depot].into()
    }

    fn of_trainee(&self, depot: usize, trainee: usize) -> usize {
        self.trainees[depot][trainee].into()
    }
}
