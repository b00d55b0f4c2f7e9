//! The placement text: reading, with refusals 2 to 6, and writing.

use crate::limits::legal_placement;
use crate::lines::{written, Line, Lines};
use crate::model::*;

/// The placement that a text says, or the first thing wrong with it.
pub fn read(text: &[u8]) -> Result<Placement, Refusal> {
    let mut lines = Lines::of(text)?;
    let mut head = lines.next_line()?;
    head.exactly("placement")?;
    head.exactly("1")?;
    let n = head.number(0, MOST_TRAINEES)?;
    let m = head.number(0, MOST_DEPOTS)?;
    head.close()?;
    let trainees = read_trainees(&mut lines, n, m)?;
    let depots = read_depots(&mut lines, n, m)?;
    let orders = read_orders(&mut lines, n, m)?;
    lines.finish()?;
    Ok(Placement {
        trainees,
        depots,
        orders,
    })
}

/// The n lines of trainees.
fn read_trainees(lines: &mut Lines, n: usize, m: usize) -> Result<Vec<Ranking>, Refusal> {
    let mut entries = 0;
    let mut trainees = Vec::new();
    for i in 1..=n {
        let mut line = lines.next_line()?;
        line.exactly("T")?;
        line.exactly(&i.to_string())?;
        trainees.push(read_list(&mut line, m, &mut entries)?);
        line.close()?;
    }
    Ok(trainees)
}

/// The m lines of depots.
fn read_depots(lines: &mut Lines, n: usize, m: usize) -> Result<Vec<Depot>, Refusal> {
    let mut entries = 0;
    let mut depots = Vec::new();
    for j in 1..=m {
        let mut line = lines.next_line()?;
        line.exactly("D")?;
        line.exactly(&j.to_string())?;
        let posts = line.received_number(MOST_POSTS)?;
        let list = read_list(&mut line, n, &mut entries)?;
        line.close()?;
        depots.push(Depot { posts, list });
    }
    Ok(depots)
}

/// A length and that many entries from 1 to high; `entries` counts those of the whole side.
fn read_list(line: &mut Line, high: usize, entries: &mut usize) -> Result<Ranking, Refusal> {
    let Some(length) = line.received_number(high)? else {
        return Ok(None);
    };
    *entries += length;
    if *entries > MOST_ENTRIES {
        return Err(line.refuse(6));
    }
    let mut list = Vec::new();
    for _ in 0..length {
        let entry = line.number(1, high)?;
        if list.contains(&entry) {
            return Err(line.refuse(5));
        }
        list.push(entry);
    }
    Ok(Some(list))
}

/// The held and barred lines, and the line that ends the text.
fn read_orders(lines: &mut Lines, n: usize, m: usize) -> Result<Vec<Order>, Refusal> {
    let mut orders = Vec::new();
    loop {
        let mut line = lines.next_line()?;
        let kind = match line.field()? {
            b"F" => Kind::Held,
            b"X" => Kind::Barred,
            b"end" => {
                line.close()?;
                return Ok(orders);
            }
            _ => return Err(line.refuse(3)),
        };
        if orders.len() == MOST_ORDERS {
            return Err(line.refuse(6));
        }
        let trainee = line.number(1, n)?;
        let depot = line.number(1, m)?;
        line.close()?;
        orders.push(Order {
            kind,
            trainee,
            depot,
        });
    }
}

/// The text of a placement.
pub fn write(placement: &Placement) -> Result<Vec<u8>, Refusal> {
    if !legal_placement(placement) {
        return Err(refusal(8));
    }
    let n = placement.trainees.len();
    let m = placement.depots.len();
    let mut text = format!("placement\t1\t{n}\t{m}\n");
    for (at, list) in placement.trainees.iter().enumerate() {
        let mut fields = vec!["T".to_string(), (at + 1).to_string()];
        fields.extend(list_fields(list));
        text += &written(&fields);
    }
    for (at, depot) in placement.depots.iter().enumerate() {
        let posts = depot
            .posts
            .map_or("?".to_string(), |posts| posts.to_string());
        let mut fields = vec!["D".to_string(), (at + 1).to_string(), posts];
        fields.extend(list_fields(&depot.list));
        text += &written(&fields);
    }
    for order in &placement.orders {
        let word = match order.kind {
            Kind::Held => "F",
            Kind::Barred => "X",
        };
        text += &format!("{word}\t{}\t{}\n", order.trainee, order.depot);
    }
    text += "end\n";
    Ok(text.into_bytes())
}

/// The fields of a list: its length and its entries, or `?`.
fn list_fields(list: &Ranking) -> Vec<String> {
    match list {
        None => vec!["?".to_string()],
        Some(entries) => std::iter::once(entries.len())
            .chain(entries.iter().copied())
            .map(|number| number.to_string())
            .collect(),
    }
}
