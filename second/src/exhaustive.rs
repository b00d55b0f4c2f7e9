//! Every matching of a small placement, tried one by one against the definitions, with nothing taken from the solver.

use crate::model::{Kind, Placement};

/// A placement in which everything was received, as plain lists.
pub struct Small {
    trainees: Vec<Vec<usize>>,
    depots: Vec<Vec<usize>>,
    posts: Vec<usize>,
    held: Vec<(usize, usize)>,
    barred: Vec<(usize, usize)>,
}

impl Small {
    /// The lists of a placement, if everything was received.
    pub fn of(placement: &Placement) -> Option<Small> {
        let pairs = |kind| {
            let orders = placement
                .orders
                .iter()
                .filter(move |order| order.kind == kind);
            orders.map(|order| (order.trainee, order.depot)).collect()
        };
        Some(Small {
            trainees: placement.trainees.iter().cloned().collect::<Option<_>>()?,
            depots: placement
                .depots
                .iter()
                .map(|depot| depot.list.clone())
                .collect::<Option<_>>()?,
            posts: placement
                .depots
                .iter()
                .map(|depot| depot.posts)
                .collect::<Option<_>>()?,
            held: pairs(Kind::Held),
            barred: pairs(Kind::Barred),
        })
    }

    /// All mutual pairs.
    pub fn mutual_pairs(&self) -> Vec<(usize, usize)> {
        let mut pairs = Vec::new();
        for (at, wishes) in self.trainees.iter().enumerate() {
            for &depot in wishes {
                if self.depots[depot - 1].contains(&(at + 1)) {
                    pairs.push((at + 1, depot));
                }
            }
        }
        pairs
    }

    /// Every table whose cells are 0 to m: a cell for each trainee.
    pub fn tables(&self) -> Vec<Vec<usize>> {
        let mut tables = vec![Vec::new()];
        for _ in &self.trainees {
            let longer = |table: Vec<usize>| {
                let cell = |depot| [table.as_slice(), &[depot]].concat();
                (0..=self.depots.len()).map(cell).collect::<Vec<_>>()
            };
            tables = tables.into_iter().flat_map(longer).collect();
        }
        tables
    }

    /// Whether a table is a matching: mutual pairs only, each depot at most its posts.
    pub fn is_matching(&self, table: &[usize]) -> bool {
        let mutual = self.mutual_pairs();
        pairs_of(table).iter().all(|pair| mutual.contains(pair))
            && (1..=self.depots.len()).all(|depot| at(table, depot).len() <= self.posts[depot - 1])
    }

    /// Whether a mutual pair outside a matching blocks it.
    pub fn blocks(&self, table: &[usize], (trainee, depot): (usize, usize)) -> bool {
        let own = table[trainee - 1];
        let rank = |wish: usize| place(&self.trainees[trainee - 1], wish);
        let worth = |other: usize| place(&self.depots[depot - 1], other);
        let trainees = at(table, depot);
        own != depot
            && (own == 0 || rank(depot) < rank(own))
            && (trainees.len() < self.posts[depot - 1]
                || trainees.iter().any(|&other| worth(other) > worth(trainee)))
    }

    /// Whether a table is a stable matching.
    pub fn is_stable(&self, table: &[usize]) -> bool {
        let blocked = || {
            self.mutual_pairs()
                .into_iter()
                .any(|pair| self.blocks(table, pair))
        };
        self.is_matching(table) && !blocked()
    }

    /// Whether a table is a respecting matching.
    pub fn is_respecting(&self, table: &[usize]) -> bool {
        let pairs = pairs_of(table);
        self.held.iter().all(|pair| pairs.contains(pair))
            && !self.barred.iter().any(|pair| pairs.contains(pair))
            && self.is_stable(table)
    }

    /// All respecting matchings.
    pub fn respecting(&self) -> Vec<Vec<usize>> {
        let mut tables = self.tables();
        tables.retain(|table| self.is_respecting(table));
        tables
    }

    /// The place of a table's depot on a trainee's list; no depot is below all.
    pub fn rank(&self, trainee: usize, depot: usize) -> usize {
        place(&self.trainees[trainee - 1], depot)
    }
}

/// The place of an entry on a list, the length where it isn't there.
fn place(list: &[usize], entry: usize) -> usize {
    list.iter()
        .position(|&other| other == entry)
        .unwrap_or(list.len())
}

/// The pairs of a table.
fn pairs_of(table: &[usize]) -> Vec<(usize, usize)> {
    let cells = table.iter().enumerate().filter(|(_, &depot)| depot != 0);
    cells.map(|(at, &depot)| (at + 1, depot)).collect()
}

/// The trainees whom a depot has in a table.
fn at(table: &[usize], depot: usize) -> Vec<usize> {
    (1..=table.len())
        .filter(|&trainee| table[trainee - 1] == depot)
        .collect()
}
