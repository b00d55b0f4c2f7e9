//! Placements and rulings written from lent cells over the front of an output.

use super::ending::Ended;
use super::guards::readable;
use super::sweeps::Ruled;
use super::view::View;
use crate::layout::NOT_RECEIVED;
use crate::model::{refusal, Refusal, MOST_BYTES};

/// Writes the placement that the tables hold: the number of bytes.
pub fn write_placement(view: View, out: &mut [u8]) -> Result<usize, Refusal> {
    if out.len() < MOST_BYTES {
        return Err(refusal(1));
    }
    readable(&view)?;
    let mut pen = Pen { out, at: 0 };
    pen.line(b"placement", &view.heads[..3]);
    for i in 1..=view.n() {
        pen.numbers(b"T", &[i as u16]);
        pen.list(&view, view.trainee_head(i));
    }
    for j in 1..=view.m() {
        let head = view.depot_head(j);
        pen.numbers(b"D", &[j as u16]);
        pen.received(head[2]);
        pen.list(&view, head);
    }
    for order in view.orders() {
        let word = if order.held { b"F" } else { b"X" };
        pen.line(word, &[order.trainee as u16, order.depot as u16]);
    }
    pen.word(b"end\n");
    Ok(pen.at)
}

/// Writes a ruling that is known to be legal: the number of bytes.
pub fn write_ruling(ruled: &Ruled, table: &[u16], record: &[u16], out: &mut [u8]) -> usize {
    let mut pen = Pen { out, at: 0 };
    pen.line(b"ruling", &[1, ruled.n, ruled.strikes]);
    for cells in record.chunks_exact(4).take(ruled.strikes.into()) {
        pen.line(b"S", cells);
    }
    match ruled.ended {
        Ended::Placed => {
            for (at, &depot) in table[..ruled.n.into()].iter().enumerate() {
                pen.line(b"A", &[at as u16 + 1, depot]);
            }
        }
        Ended::NoneHeld(trainee, depot) => pen.line(b"N", &[1, trainee, depot]),
        Ended::NoneRoom(trainee, depot) => pen.line(b"N", &[2, trainee, depot]),
    }
    pen.word(b"end\n");
    pen.at
}

/// The line of a refusal: the number of bytes.
pub fn write_refusal(refusal: Refusal, out: &mut [u8]) -> usize {
    let mut pen = Pen { out, at: 0 };
    pen.line(b"refused", &[refusal.number as u16, refusal.line as u16]);
    pen.at
}

/// An output, and how far it is written.
struct Pen<'a> {
    out: &'a mut [u8],
    at: usize,
}

impl Pen<'_> {
    /// The bytes of a word.
    fn word(&mut self, word: &[u8]) {
        self.out[self.at..self.at + word.len()].copy_from_slice(word);
        self.at += word.len();
    }

    /// A number as a field.
    fn number(&mut self, number: u16) {
        let mut field = [0; 6];
        let mut from = field.len();
        let mut rest = number;
        loop {
            from -= 1;
            field[from] = b'0' + (rest % 10) as u8;
            rest /= 10;
            if rest == 0 {
                break;
            }
        }
        field[from - 1] = b'\t';
        self.word(&field[from - 1..]);
    }

    /// A number, or `?` for one that was not received.
    fn received(&mut self, cell: u16) {
        if cell == NOT_RECEIVED {
            self.word(b"\t?");
        } else {
            self.number(cell);
        }
    }

    /// A word and numbers.
    fn numbers(&mut self, word: &[u8], numbers: &[u16]) {
        self.word(word);
        numbers.iter().for_each(|&number| self.number(number));
    }

    /// A line of a word and numbers.
    fn line(&mut self, word: &[u8], numbers: &[u16]) {
        self.numbers(word, numbers);
        self.word(b"\n");
    }

    /// The length of a list, its entries and the line's end.
    fn list(&mut self, view: &View, head: &[u16]) {
        self.received(head[1]);
        if head[1] != NOT_RECEIVED {
            let list = view.list(head);
            list.iter().for_each(|&entry| self.number(entry));
        }
        self.word(b"\n");
    }
}
