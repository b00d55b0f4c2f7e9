//! Refusals 1, 8 and 7 of the engines: the tests that stand before any work on lent tables.

use super::view::View;
use crate::layout::{ENTRIES, HEADS, NOT_RECEIVED, ORDERS, RECORD, TABLE};
use crate::model::{
    refusal, Refusal, MOST_DEPOTS, MOST_ENTRIES, MOST_ORDERS, MOST_POSTS, MOST_TRAINEES,
};

/// Refused 1 where a table is short, and 8 where no reader could have filled them.
pub fn readable(view: &View) -> Result<(), Refusal> {
    if view.heads.len() < HEADS || view.entries.len() < ENTRIES || view.orders.len() < ORDERS {
        return Err(refusal(1));
    }
    if sides_ok(view) && orders_ok(view) {
        Ok(())
    } else {
        Err(refusal(8))
    }
}

/// Refused 1 where there is no room for any table and any record.
pub fn roomy(table: &[u16], record: &[u16]) -> Result<(), Refusal> {
    if table.len() < TABLE || record.len() < RECORD {
        return Err(refusal(1));
    }
    Ok(())
}

/// Refused 7 where a list or posts were not received.
pub fn received(view: &View) -> Result<(), Refusal> {
    match view.missing_line() {
        Some(line) => Err(Refusal { number: 7, line }),
        None => Ok(()),
    }
}

/// Whether heads and entries hold the two sides of a placement.
fn sides_ok(view: &View) -> bool {
    let (n, m) = (view.n(), view.m());
    if view.heads[0] != 1 || n > MOST_TRAINEES || m > MOST_DEPOTS {
        return false;
    }
    let trainees = (1..=n).map(|i| view.trainee_head(i));
    let depots = (1..=m).map(|j| view.depot_head(j));
    let Some(middle) = side_end(view, trainees, 0, m) else {
        return false;
    };
    side_end(view, depots, middle, n).is_some()
}

/// Where the entries of a side end that begin at `start`.
fn side_end<'a>(
    view: &View,
    mut heads: impl Iterator<Item = &'a [u16]>,
    start: usize,
    high: usize,
) -> Option<usize> {
    let end = heads.try_fold(start, |start, head| list_end(view, head, start, high))?;
    (end - start <= MOST_ENTRIES).then_some(end)
}

/// Where the list of a head ends, which must begin at `start` and name only 1 to `high`, nobody twice.
fn list_end(view: &View, head: &[u16], start: usize, high: usize) -> Option<usize> {
    let posts_ok = head
        .get(2)
        .is_none_or(|&posts| posts == NOT_RECEIVED || usize::from(posts) <= MOST_POSTS);
    if usize::from(head[0]) != start || !posts_ok {
        return None;
    }
    if head[1] == NOT_RECEIVED {
        return Some(start);
    }
    let length = usize::from(head[1]);
    if length > high {
        return None;
    }
    let list = view.entries.get(start..start + length)?;
    distinct(list, high).then_some(start + length)
}

/// Whether a list names only 1 to `high`, nobody twice.
fn distinct(list: &[u16], high: usize) -> bool {
    let mut seen = [false; MOST_TRAINEES + 1];
    list.iter().all(|&entry| {
        let entry = usize::from(entry);
        (1..=high).contains(&entry) && !std::mem::replace(&mut seen[entry], true)
    })
}

/// Whether the orders are pairs of a kind that there is, not too many.
fn orders_ok(view: &View) -> bool {
    let number = usize::from(view.orders[0]);
    let (n, m) = (view.heads[1], view.heads[2]);
    number <= MOST_ORDERS
        && view.orders[1..1 + 3 * number].chunks_exact(3).all(|cells| {
            cells[0] <= 1 && (1..=n).contains(&cells[1]) && (1..=m).contains(&cells[2])
        })
}
