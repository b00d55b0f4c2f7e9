//! The struck pairs so far, and what the four reasons and the endings say of them.

use crate::market::Market;
use crate::model::{Kind, Order, Reason, Strike};
use crate::stability::{first_over_posts, number_at, tested, Tested};

/// A market under its orders, with the pairs struck so far.
pub struct Board<'a> {
    pub market: &'a Market,
    orders: &'a [Order],
    struck: Vec<Vec<bool>>,
}

impl<'a> Board<'a> {
    /// Before the first strike.
    pub fn new(market: &'a Market, orders: &'a [Order]) -> Self {
        let none = vec![false; market.depots().count() + 1];
        Board {
            market,
            orders,
            struck: vec![none; market.trainees().count() + 1],
        }
    }

    /// One pair more is struck.
    pub fn strike(&mut self, strike: &Strike) {
        self.struck[strike.trainee][strike.depot] = true;
    }

    /// Whether a pair is struck.
    pub fn is_struck(&self, trainee: usize, depot: usize) -> bool {
        self.struck[trainee][depot]
    }

    /// Whether planners gave this order of this pair.
    fn ordered(&self, kind: Kind, trainee: usize, depot: usize) -> bool {
        let order = Order {
            kind,
            trainee,
            depot,
        };
        self.orders.contains(&order)
    }

    /// The held pairs, in file order.
    pub fn held(&self) -> impl Iterator<Item = (usize, usize)> + '_ {
        let held = self.orders.iter().filter(|order| order.kind == Kind::Held);
        held.map(|order| (order.trainee, order.depot))
    }

    /// Whether a trainee has every mutual pair above a depot struck.
    fn above_struck(&self, trainee: usize, depot: usize) -> bool {
        let mut above = self.market.wishes_above(trainee, depot).iter();
        above.all(|&other| self.is_struck(trainee, other))
    }

    /// Whether a trainee has every mutual pair down to and including a depot struck.
    pub fn down_to_struck(&self, trainee: usize, depot: usize) -> bool {
        self.is_struck(trainee, depot) && self.above_struck(trainee, depot)
    }

    /// Reason 3: the posts are gone to trainees ranked above this one who can't do better.
    fn posts_gone(&self, trainee: usize, depot: usize) -> bool {
        let above = self.market.ranked_above(depot, trainee).iter();
        let settled = above.filter(|&&other| self.above_struck(other, depot));
        settled.count() >= self.market.posts(depot)
    }

    /// Whether a mutual pair may be struck for this reason with this witness, apart from being struck already.
    pub fn applies(&self, trainee: usize, depot: usize, reason: Reason) -> bool {
        match reason {
            Reason::Barred => self.ordered(Kind::Barred, trainee, depot),
            Reason::HeldElsewhere(other) => {
                other != depot && self.ordered(Kind::Held, trainee, other)
            }
            Reason::PostsGone => self.posts_gone(trainee, depot),
            Reason::Passed(other) => {
                self.market.ranked_above(depot, trainee).contains(&other)
                    && self.down_to_struck(other, depot)
            }
        }
    }

    /// The lowest reason for which a mutual pair may be struck, with its smallest witness.
    pub fn lowest_reason(&self, trainee: usize, depot: usize) -> Option<Reason> {
        if self.applies(trainee, depot, Reason::Barred) {
            return Some(Reason::Barred);
        }
        let held = self
            .held()
            .filter(|&(other, at)| other == trainee && at != depot);
        if let Some(smallest) = held.map(|(_, at)| at).min() {
            return Some(Reason::HeldElsewhere(smallest));
        }
        if self.applies(trainee, depot, Reason::PostsGone) {
            return Some(Reason::PostsGone);
        }
        let above = self.market.ranked_above(depot, trainee).iter().copied();
        let passed = above.filter(|&other| self.down_to_struck(other, depot));
        passed.min().map(Reason::Passed)
    }

    /// Each trainee's best mutual pair not struck, 0 for none.
    pub fn left_table(&self) -> Vec<usize> {
        let best = |trainee: usize| {
            let mut wishes = self.market.wishes(trainee).iter().copied();
            wishes
                .find(|&depot| !self.is_struck(trainee, depot))
                .unwrap_or(0)
        };
        self.market.trainees().map(best).collect()
    }

    /// Whether a table is a respecting matching.
    pub fn respects(&self, table: &[usize]) -> bool {
        let keeps = |order: &Order| {
            let placed = table[order.trainee - 1] == order.depot;
            placed == (order.kind == Kind::Held)
        };
        tested(self.market, table) == Tested::Stable && self.orders.iter().all(keeps)
    }

    /// Kind 1: a held pair that is struck or isn't mutual.
    pub fn shows_held(&self, trainee: usize, depot: usize) -> bool {
        self.ordered(Kind::Held, trainee, depot)
            && (self.is_struck(trainee, depot) || !self.market.mutual(trainee, depot))
    }

    /// Kind 2: a mutual pair whose trainee is past the depot, which has room in the left table.
    pub fn shows_room(&self, left: &[usize], trainee: usize, depot: usize) -> bool {
        first_over_posts(self.market, left).is_none()
            && self.market.mutual(trainee, depot)
            && self.down_to_struck(trainee, depot)
            && number_at(left, depot) < self.market.posts(depot)
    }
}
