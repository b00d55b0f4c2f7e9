//! A placement text read into lent tables: scratch tables first, then their used cells, so that a refusal changes nothing.

use super::cursor::{Cursor, Wrong};
use crate::layout::{ENTRIES, HEADS, NOT_RECEIVED, ORDERS};
use crate::model::*;

/// The scratch tables, and how many of their cells are used.
struct Scratch {
    heads: [u16; HEADS],
    entries: [u16; ENTRIES],
    orders: [u16; ORDERS],
    used_heads: usize,
    used_entries: usize,
    used_orders: usize,
}

/// Reads a text, or refuses it by number and line.
pub fn read(
    text: &[u8],
    heads: &mut [u16],
    entries: &mut [u16],
    orders: &mut [u16],
) -> Result<(), Refusal> {
    if heads.len() < HEADS || entries.len() < ENTRIES || orders.len() < ORDERS {
        return Err(refusal(1));
    }
    if text.len() > MOST_BYTES {
        return Err(refusal(2));
    }
    let mut scratch = Scratch::new();
    let mut cursor = Cursor::new(text);
    scratch
        .fill(&mut cursor)
        .map_err(|number| cursor.refuse(number))?;
    lay(&scratch.heads[..scratch.used_heads], heads);
    lay(&scratch.entries[..scratch.used_entries], entries);
    lay(&scratch.orders[..scratch.used_orders], orders);
    Ok(())
}

/// Cells over the front of a table.
fn lay(cells: &[u16], table: &mut [u16]) {
    table[..cells.len()].copy_from_slice(cells);
}

impl Scratch {
    /// No cell is used.
    fn new() -> Self {
        Scratch {
            heads: [0; HEADS],
            entries: [0; ENTRIES],
            orders: [0; ORDERS],
            used_heads: 0,
            used_entries: 0,
            used_orders: 0,
        }
    }

    /// One more cell of the heads.
    fn push_head(&mut self, cell: u16) {
        self.heads[self.used_heads] = cell;
        self.used_heads += 1;
    }

    /// The whole text.
    fn fill(&mut self, cursor: &mut Cursor) -> Result<(), Wrong> {
        cursor.keyword(b"placement")?;
        cursor.running(1)?;
        let n = cursor.number(0, MOST_TRAINEES as u16)?;
        let m = cursor.number(0, MOST_DEPOTS as u16)?;
        cursor.end_line()?;
        self.heads[..3].copy_from_slice(&[1, n, m]);
        self.used_heads = 3;
        for i in 1..=n {
            cursor.keyword(b"T")?;
            cursor.running(i)?;
            self.list(cursor, m, 0)?;
        }
        let base = self.used_entries;
        for j in 1..=m {
            cursor.keyword(b"D")?;
            cursor.running(j)?;
            let posts = cursor.received(MOST_POSTS as u16)?;
            self.list(cursor, n, base)?;
            self.push_head(posts.unwrap_or(NOT_RECEIVED));
        }
        self.order_lines(cursor, n, m)?;
        cursor.finish()
    }

    /// A length, so many entries and the end of the line; the entries of this side begin at `base`.
    fn list(&mut self, cursor: &mut Cursor, high: u16, base: usize) -> Result<(), Wrong> {
        let start = self.used_entries;
        let length = cursor.received(high)?;
        let end = start + usize::from(length.unwrap_or(0));
        if end - base > MOST_ENTRIES {
            return Err(6);
        }
        self.push_head(start as u16);
        self.push_head(length.unwrap_or(NOT_RECEIVED));
        let mut seen = [false; MOST_TRAINEES + 1];
        for cell in &mut self.entries[start..end] {
            let entry = cursor.number(1, high)?;
            if std::mem::replace(&mut seen[usize::from(entry)], true) {
                return Err(5);
            }
            *cell = entry;
        }
        self.used_entries = end;
        cursor.end_line()
    }

    /// The held and barred lines, and the line that ends the text.
    fn order_lines(&mut self, cursor: &mut Cursor, n: u16, m: u16) -> Result<(), Wrong> {
        self.used_orders = 1;
        loop {
            let kind = match cursor.word() {
                b"F" => 0,
                b"X" => 1,
                b"end" => return cursor.end_line(),
                _ => return Err(3),
            };
            if usize::from(self.orders[0]) == MOST_ORDERS {
                return Err(6);
            }
            let pair = [cursor.number(1, n)?, cursor.number(1, m)?];
            cursor.end_line()?;
            let at = self.used_orders;
            self.orders[at..at + 3].copy_from_slice(&[kind, pair[0], pair[1]]);
            self.orders[0] += 1;
            self.used_orders += 3;
        }
    }
}
