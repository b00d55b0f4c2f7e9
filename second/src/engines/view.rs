//! What the cells of lent tables say.

use crate::layout::{Tables, NOT_RECEIVED};

/// The three tables of a placement, as they are lent.
#[derive(Clone, Copy)]
pub struct View<'a> {
    pub heads: &'a [u16],
    pub entries: &'a [u16],
    pub orders: &'a [u16],
}

/// A held or barred pair.
#[derive(Clone, Copy)]
pub struct Order {
    pub held: bool,
    pub trainee: usize,
    pub depot: usize,
}

impl<'a> View<'a> {
    /// The view of tables in one's own hands.
    pub fn of(tables: &'a Tables) -> View<'a> {
        View {
            heads: &tables.heads,
            entries: &tables.entries,
            orders: &tables.orders,
        }
    }

    /// The number of trainees.
    pub fn n(&self) -> usize {
        self.heads[1].into()
    }

    /// The number of depots.
    pub fn m(&self) -> usize {
        self.heads[2].into()
    }

    /// Start and length of a trainee's list.
    pub fn trainee_head(&self, trainee: usize) -> &'a [u16] {
        let at = 1 + 2 * trainee;
        &self.heads[at..at + 2]
    }

    /// Start and length of a depot's list, and its posts.
    pub fn depot_head(&self, depot: usize) -> &'a [u16] {
        let at = 2 * self.n() + 3 * depot;
        &self.heads[at..at + 3]
    }

    /// The entries of a head.
    pub fn list(&self, head: &[u16]) -> &'a [u16] {
        let start = usize::from(head[0]);
        &self.entries[start..start + usize::from(head[1])]
    }

    /// The depots that a trainee ranks, best first.
    pub fn wishes(&self, trainee: usize) -> &'a [u16] {
        self.list(self.trainee_head(trainee))
    }

    /// The trainees whom a depot ranks, best first.
    pub fn ranking(&self, depot: usize) -> &'a [u16] {
        self.list(self.depot_head(depot))
    }

    /// The posts of a depot.
    pub fn posts(&self, depot: usize) -> usize {
        self.depot_head(depot)[2].into()
    }

    /// The orders, in file order.
    pub fn orders(&self) -> impl Iterator<Item = Order> + 'a {
        let cells = &self.orders[1..1 + 3 * usize::from(self.orders[0])];
        cells.chunks_exact(3).map(|cells| Order {
            held: cells[0] == 0,
            trainee: cells[1].into(),
            depot: cells[2].into(),
        })
    }

    /// The line of the first list or posts not received.
    pub fn missing_line(&self) -> Option<usize> {
        let trainee = (1..=self.n()).find(|&i| self.trainee_head(i)[1] == NOT_RECEIVED);
        let depot = || (1..=self.m()).find(|&j| self.depot_head(j)[1..].contains(&NOT_RECEIVED));
        trainee
            .map(|i| 1 + i)
            .or_else(|| depot().map(|j| 1 + self.n() + j))
    }
}
