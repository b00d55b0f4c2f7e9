//! What placements and rulings say. Trainees and depots are numbered from 1 in the order in which they stand.

pub const MOST_TRAINEES: usize = 256;
pub const MOST_DEPOTS: usize = 64;
pub const MOST_POSTS: usize = 256;
pub const MOST_ENTRIES: usize = 4096;
pub const MOST_ORDERS: usize = 1024;
pub const MOST_STRIKES: usize = 4096;
pub const MOST_BYTES: usize = 65536;

/// A list of distinct numbers, best first; `None` is a list that was not received.
pub type Ranking = Option<Vec<usize>>;

/// A depot: its posts and its list, each received or not.
#[derive(Clone, Debug, PartialEq, Eq)]
pub struct Depot {
    pub posts: Option<usize>,
    pub list: Ranking,
}

/// What planners order of a pair.
#[derive(Clone, Copy, Debug, PartialEq, Eq)]
pub enum Kind {
    Held,
    Barred,
}

/// A held or barred pair.
#[derive(Clone, Copy, Debug, PartialEq, Eq)]
pub struct Order {
    pub kind: Kind,
    pub trainee: usize,
    pub depot: usize,
}

/// A placement, its orders in file order.
#[derive(Clone, Debug, Default, PartialEq, Eq)]
pub struct Placement {
    pub trainees: Vec<Ranking>,
    pub depots: Vec<Depot>,
    pub orders: Vec<Order>,
}

/// Why a pair is struck, with the witness that the reason has.
#[derive(Clone, Copy, Debug, PartialEq, Eq)]
pub enum Reason {
    Barred,
    HeldElsewhere(usize),
    PostsGone,
    Passed(usize),
}

/// One step of a record.
#[derive(Clone, Copy, Debug, PartialEq, Eq)]
pub struct Strike {
    pub trainee: usize,
    pub depot: usize,
    pub reason: Reason,
}

/// How a ruling ends: with the depot of each trainee (0 is none), or with the pair of a None of kind 1 or 2.
#[derive(Clone, Debug, PartialEq, Eq)]
pub enum Ending {
    Placed(Vec<usize>),
    NoneHeld(usize, usize),
    NoneRoom(usize, usize),
}

/// A ruling over n trainees.
#[derive(Clone, Debug, PartialEq, Eq)]
pub struct Ruling {
    pub n: usize,
    pub strikes: Vec<Strike>,
    pub ending: Ending,
}

/// A number given back, and the line that it gives.
#[derive(Clone, Copy, Debug, PartialEq, Eq)]
pub struct Refusal {
    pub number: usize,
    pub line: usize,
}

/// A refusal that speaks of no line.
pub fn refusal(number: usize) -> Refusal {
    Refusal { number, line: 0 }
}
