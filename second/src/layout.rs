//! The lent tables of the proved library: which cells a placement and a ruling fill, and what cells hold where a reader could have filled them.
//! Only the comparison and the engines look in here; the second implementation itself knows nothing of cells.

use crate::limits::{legal_placement, legal_ruling};
use crate::model::*;
use crate::ruling_text::numbers_of;

/// Full sizes of the tables, in cells.
pub const HEADS: usize = 3 + 2 * MOST_TRAINEES + 3 * MOST_DEPOTS;
pub const ENTRIES: usize = 2 * MOST_ENTRIES;
pub const ORDERS: usize = 1 + 3 * MOST_ORDERS;
pub const TABLE: usize = MOST_TRAINEES;
pub const RECORD: usize = 4 * MOST_STRIKES;

/// The cell of a length or of posts not received.
pub const NOT_RECEIVED: u16 = u16::MAX;

/// The three tables of a placement: only the used cells, or the whole of them as they are lent.
#[derive(Clone, Debug, Default, PartialEq, Eq)]
pub struct Tables {
    pub heads: Vec<u16>,
    pub entries: Vec<u16>,
    pub orders: Vec<u16>,
}

impl Tables {
    /// The used cells of a placement within the limits.
    pub fn of(placement: &Placement) -> Tables {
        let mut tables = Tables::default();
        let sizes = [1, placement.trainees.len(), placement.depots.len()];
        tables.heads.extend(sizes.map(cell));
        for list in &placement.trainees {
            tables.push_list(list);
        }
        for depot in &placement.depots {
            tables.push_list(&depot.list);
            tables.heads.push(depot.posts.map_or(NOT_RECEIVED, cell));
        }
        tables.orders.push(cell(placement.orders.len()));
        for order in &placement.orders {
            let kind = u16::from(order.kind == Kind::Barred);
            let pair = [cell(order.trainee), cell(order.depot)];
            tables.orders.extend([kind, pair[0], pair[1]]);
        }
        tables
    }

    /// A list's start and length, and its entries behind those that are there.
    fn push_list(&mut self, list: &Ranking) {
        self.heads.push(cell(self.entries.len()));
        self.heads
            .push(list.as_ref().map_or(NOT_RECEIVED, |list| cell(list.len())));
        self.entries
            .extend(list.iter().flatten().map(|&entry| cell(entry)));
    }

    /// These used cells over the fronts of other tables.
    pub fn over(&self, other: &Tables) -> Tables {
        Tables {
            heads: laid(&self.heads, &other.heads),
            entries: laid(&self.entries, &other.entries),
            orders: laid(&self.orders, &other.orders),
        }
    }

    /// The placement that whole tables hold: refused 1 where one is short, 8 where no reader could have filled them.
    pub fn placement(&self) -> Result<Placement, Refusal> {
        let short =
            self.heads.len() < HEADS || self.entries.len() < ENTRIES || self.orders.len() < ORDERS;
        if short {
            return Err(refusal(1));
        }
        self.decoded()
            .filter(legal_placement)
            .ok_or_else(|| refusal(8))
    }

    /// The placement that cells of full size spell out, legal or not.
    fn decoded(&self) -> Option<Placement> {
        let (n, m) = (usize::from(self.heads[1]), usize::from(self.heads[2]));
        if self.heads[0] != 1 || n > MOST_TRAINEES || m > MOST_DEPOTS {
            return None;
        }
        let (sides, _) = self.heads[3..].split_at(2 * n + 3 * m);
        let (trainee_heads, depot_heads) = sides.split_at(2 * n);
        let mut start = 0;
        let mut trainees = Vec::new();
        for head in trainee_heads.chunks(2) {
            trainees.push(self.list(head, &mut start)?);
        }
        let mut depots = Vec::new();
        for head in depot_heads.chunks(3) {
            let list = self.list(head, &mut start)?;
            let posts = received(head[2]);
            depots.push(Depot { posts, list });
        }
        let orders = self.decoded_orders()?;
        Some(Placement {
            trainees,
            depots,
            orders,
        })
    }

    /// The list of a head, which must start where the one before it ended.
    fn list(&self, head: &[u16], start: &mut usize) -> Option<Ranking> {
        if usize::from(head[0]) != *start {
            return None;
        }
        let Some(length) = received(head[1]) else {
            return Some(None);
        };
        let entries = self.entries.get(*start..*start + length)?;
        *start += length;
        Some(Some(entries.iter().copied().map(usize::from).collect()))
    }

    /// The orders, each of a kind that there is.
    fn decoded_orders(&self) -> Option<Vec<Order>> {
        let number = usize::from(self.orders[0]);
        let cells = self.orders.get(1..1 + 3 * number)?;
        let order = |cells: &[u16]| {
            let kind = match cells[0] {
                0 => Kind::Held,
                1 => Kind::Barred,
                _ => return None,
            };
            let (trainee, depot) = (usize::from(cells[1]), usize::from(cells[2]));
            Some(Order {
                kind,
                trainee,
                depot,
            })
        };
        cells.chunks(3).map(order).collect()
    }
}

/// A ruling as it is lent: five numbers, the table and the cells of the record.
#[derive(Clone, Debug, PartialEq, Eq)]
pub struct LentRuling {
    pub n: u16,
    pub strikes: u16,
    /// 0 placed, 1 held pair, 2 room
    pub kind: u16,
    pub trainee: u16,
    pub depot: u16,
    pub table: Vec<u16>,
    pub record: Vec<u16>,
}

impl LentRuling {
    /// The numbers and the used cells of a ruling.
    pub fn of(ruling: &Ruling) -> LentRuling {
        let (kind, trainee, depot) = match ruling.ending {
            Ending::Placed(_) => (0, 0, 0),
            Ending::NoneHeld(trainee, depot) => (1, cell(trainee), cell(depot)),
            Ending::NoneRoom(trainee, depot) => (2, cell(trainee), cell(depot)),
        };
        LentRuling {
            n: cell(ruling.n),
            strikes: cell(ruling.strikes.len()),
            kind,
            trainee,
            depot,
            table: table_cells(&ruling.ending),
            record: ruling.strikes.iter().flat_map(strike_cells).collect(),
        }
    }

    /// The ruling that full parts hold: refused 1 where one is short, 8 where no reader could have filled them.
    pub fn ruling(&self) -> Result<Ruling, Refusal> {
        if self.table.len() < TABLE || self.record.len() < RECORD {
            return Err(refusal(1));
        }
        self.decoded()
            .filter(legal_ruling)
            .ok_or_else(|| refusal(8))
    }

    /// The ruling that cells of full size spell out, legal or not.
    fn decoded(&self) -> Option<Ruling> {
        let n = usize::from(self.n);
        let (trainee, depot) = (usize::from(self.trainee), usize::from(self.depot));
        let ending = match self.kind {
            0 => Ending::Placed(self.table.get(..n)?.iter().map(|&at| at.into()).collect()),
            1 => Ending::NoneHeld(trainee, depot),
            2 => Ending::NoneRoom(trainee, depot),
            _ => return None,
        };
        let cells = self.record.get(..4 * usize::from(self.strikes))?;
        let strikes = cells.chunks(4).map(strike).collect::<Option<_>>()?;
        Some(Ruling { n, strikes, ending })
    }
}

/// The cells of the table with which a ruling ends; a None uses none.
pub fn table_cells(ending: &Ending) -> Vec<u16> {
    match ending {
        Ending::Placed(table) => table.iter().map(|&depot| cell(depot)).collect(),
        _ => Vec::new(),
    }
}

/// Trainee, depot, reason, witness.
pub fn strike_cells(strike: &Strike) -> [u16; 4] {
    let (reason, witness) = numbers_of(strike.reason);
    [strike.trainee, strike.depot, reason, witness].map(cell)
}

/// The strike that four cells spell out.
fn strike(cells: &[u16]) -> Option<Strike> {
    let witness = usize::from(cells[3]);
    let reason = match (cells[2], witness) {
        (1, 0) => Reason::Barred,
        (2, depot) => Reason::HeldElsewhere(depot),
        (3, 0) => Reason::PostsGone,
        (4, trainee) => Reason::Passed(trainee),
        _ => return None,
    };
    let (trainee, depot) = (usize::from(cells[0]), usize::from(cells[1]));
    Some(Strike {
        trainee,
        depot,
        reason,
    })
}

/// Cells over the front of other ones.
pub fn laid<T: Clone>(cells: &[T], other: &[T]) -> Vec<T> {
    let behind = other.get(cells.len()..).unwrap_or_default();
    [cells, behind].concat()
}

/// A number of a length or of posts, unless it was not received.
fn received(cell: u16) -> Option<usize> {
    (cell != NOT_RECEIVED).then_some(usize::from(cell))
}

/// A number as a cell.
fn cell(number: usize) -> u16 {
    u16::try_from(number).expect("a number fits in its cell")
}
