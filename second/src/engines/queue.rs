//! A queue engine: each pair is struck once, when its depot's line moves above it. The struck pairs are those of the sweeps, in another order.

use super::ending::ending;
use super::ranks::{Filled, Ranks};
use super::sweeps::{first_left, ready, Board, Ruled};
use super::view::View;
use crate::model::{Refusal, MOST_DEPOTS};

/// Solves for the verdict, its pair and the table; the record gets the struck pairs without reasons.
pub fn solve_queued(view: View, table: &mut [u16], record: &mut [u16]) -> Result<Ruled, Refusal> {
    ready(&view, table, record)?;
    let ranks = Filled::of(&view);
    let mut queue = Queue::new(&view, &ranks, record);
    queue.run();
    Ok(Ruled {
        n: view.heads[1],
        strikes: queue.strikes as u16,
        ended: ending(&view, &ranks, &queue.board.rows, table),
    })
}

/// Where the line of a depot stands: everyone on its list from there on is struck.
#[derive(Clone, Copy, Default)]
struct Line {
    /// the number of places above the line
    above: usize,
    /// how many of these have everything above the depot struck
    settled: usize,
}

/// The trainees whose best place left has moved, and the line of each depot.
struct Queue<'a> {
    board: Board<'a, Filled>,
    moved: Vec<usize>,
    /// how many places of a trainee's list were told their depots: one more than are struck
    told: Vec<usize>,
    lines: [Line; MOST_DEPOTS + 1],
    settled: Vec<Vec<bool>>,
    record: &'a mut [u16],
    strikes: usize,
}

impl<'a> Queue<'a> {
    /// Everyone is to be looked at, and no line is drawn but those of depots without posts.
    fn new(view: &'a View<'a>, ranks: &'a Filled, record: &'a mut [u16]) -> Self {
        let mut lines = [Line::default(); MOST_DEPOTS + 1];
        let mut settled = vec![Vec::new()];
        for (depot, line) in lines.iter_mut().enumerate().take(view.m() + 1).skip(1) {
            line.above = view.ranking(depot).len();
            settled.push(vec![false; line.above]);
        }
        Queue {
            board: Board::new(view, ranks),
            moved: (1..=view.n()).rev().collect(),
            told: vec![0; view.n() + 1],
            lines,
            settled,
            record,
            strikes: 0,
        }
    }

    /// Orders first, then depots without posts, then whatever follows.
    fn run(&mut self) {
        self.strike_orders();
        for depot in 1..=self.board.view.m() {
            if self.board.view.posts(depot) == 0 {
                self.draw(depot, 0);
            }
        }
        while let Some(trainee) = self.moved.pop() {
            self.tell(trainee);
        }
    }

    /// Strikes what is barred, and what is elsewhere than a hold.
    fn strike_orders(&mut self) {
        let view = self.board.view;
        for trainee in 1..=view.n() {
            let (held, barred) = (self.board.held[trainee], self.board.barred[trainee]);
            if held | barred == 0 {
                continue;
            }
            for (place, &depot) in view.wishes(trainee).iter().enumerate() {
                let own = 1 << (depot - 1);
                if barred & own != 0 || held & !own != 0 {
                    self.strike(trainee, place, depot);
                }
            }
        }
    }

    /// Strikes a pair unless it is struck or not mutual.
    fn strike(&mut self, trainee: usize, place: usize, depot: u16) {
        let row = &mut self.board.rows[trainee];
        if *row >> place & 1 == 1 {
            return;
        }
        if first_left(*row) == place {
            self.moved.push(trainee);
        }
        *row |= 1 << place;
        self.record[4 * self.strikes] = trainee as u16;
        self.record[4 * self.strikes + 1] = depot;
        self.strikes += 1;
    }

    /// Tells the depots down to a trainee's best place left, the others that they were passed.
    fn tell(&mut self, trainee: usize) {
        let wishes = self.board.view.wishes(trainee);
        let first = first_left(self.board.rows[trainee]);
        let from = self.told[trainee].saturating_sub(1);
        self.told[trainee] = first + 1;
        for (place, &depot) in wishes.iter().enumerate().take(first + 1).skip(from) {
            self.settle(depot.into(), trainee, place < first);
        }
    }

    /// A trainee has everything above a depot struck, and perhaps the depot too.
    fn settle(&mut self, depot: usize, trainee: usize, passed: bool) {
        let Some(rank) = self.board.ranks.of_trainee(depot, trainee).checked_sub(1) else {
            return;
        };
        let line = &mut self.lines[depot];
        if rank < line.above && !self.settled[depot][rank] {
            line.settled += 1;
        }
        self.settled[depot][rank] = true;
        if passed && rank + 1 < self.lines[depot].above {
            self.draw(depot, rank + 1);
        }
        self.draw_full(depot);
    }

    /// Draws the line below the last of a depot's posts that is gone.
    fn draw_full(&mut self, depot: usize) {
        let posts = self.board.view.posts(depot);
        let Line { above, mut settled } = self.lines[depot];
        if settled < posts || posts == 0 {
            return;
        }
        let mut last = above;
        while settled >= posts {
            last -= 1;
            settled -= usize::from(self.settled[depot][last]);
        }
        self.draw(depot, last + 1);
    }

    /// Draws a depot's line and strikes what it leaves below.
    fn draw(&mut self, depot: usize, above: usize) {
        let ranking = self.board.view.ranking(depot);
        let old = self.lines[depot].above;
        for (rank, &trainee) in ranking.iter().enumerate().take(old).skip(above) {
            let trainee = usize::from(trainee);
            self.lines[depot].settled -= usize::from(self.settled[depot][rank]);
            if let Some(place) = self.board.ranks.of_depot(trainee, depot).checked_sub(1) {
                self.strike(trainee, place, depot as u16);
            }
        }
        self.lines[depot].above = above;
    }
}
