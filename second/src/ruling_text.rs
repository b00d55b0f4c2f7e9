//! The ruling text: reading, with refusals 2 to 4, and writing.

use crate::limits::legal_ruling;
use crate::lines::{Line, Lines};
use crate::model::*;

/// The ruling that a text says, or the first thing wrong with it.
pub fn read(text: &[u8]) -> Result<Ruling, Refusal> {
    let mut lines = Lines::of(text)?;
    let mut head = lines.next_line()?;
    head.exactly("ruling")?;
    head.exactly("1")?;
    let n = head.number(0, MOST_TRAINEES)?;
    let s = head.number(0, MOST_STRIKES)?;
    head.close()?;
    let mut strikes = Vec::new();
    for _ in 0..s {
        strikes.push(read_strike(lines.next_line()?, n)?);
    }
    let ending = read_ending(&mut lines, n)?;
    lines.finish()?;
    Ok(Ruling { n, strikes, ending })
}

/// One line of the record.
fn read_strike(mut line: Line, n: usize) -> Result<Strike, Refusal> {
    line.exactly("S")?;
    let trainee = line.number(1, n)?;
    let depot = line.number(1, MOST_DEPOTS)?;
    let reason = match line.number(1, 4)? {
        1 => line.number(0, 0).map(|_| Reason::Barred)?,
        2 => line.number(1, MOST_DEPOTS).map(Reason::HeldElsewhere)?,
        3 => line.number(0, 0).map(|_| Reason::PostsGone)?,
        _ => line.number(1, n).map(Reason::Passed)?,
    };
    line.close()?;
    Ok(Strike {
        trainee,
        depot,
        reason,
    })
}

/// The ending and the line that ends the text: with no trainees a table has no line, and the last line stands there at once.
fn read_ending(lines: &mut Lines, n: usize) -> Result<Ending, Refusal> {
    let mut line = lines.next_line()?;
    let word = line.field()?;
    if word == b"N" {
        let ending = read_none(line, n)?;
        let mut last = lines.next_line()?;
        last.exactly("end")?;
        last.close()?;
        return Ok(ending);
    }
    let mut table = Vec::new();
    let mut word = word;
    for i in 1..=n {
        if word != b"A" {
            return Err(line.refuse(3));
        }
        line.exactly(&i.to_string())?;
        table.push(line.number(0, MOST_DEPOTS)?);
        line.close()?;
        line = lines.next_line()?;
        word = line.field()?;
    }
    if word != b"end" {
        return Err(line.refuse(3));
    }
    line.close()?;
    Ok(Ending::Placed(table))
}

/// The rest of a line that says None.
fn read_none(mut line: Line, n: usize) -> Result<Ending, Refusal> {
    let kind = line.number(1, 2)?;
    let trainee = line.number(1, n)?;
    let depot = line.number(1, MOST_DEPOTS)?;
    line.close()?;
    Ok(if kind == 1 {
        Ending::NoneHeld(trainee, depot)
    } else {
        Ending::NoneRoom(trainee, depot)
    })
}

/// The text of a ruling.
pub fn write(ruling: &Ruling) -> Result<Vec<u8>, Refusal> {
    if !legal_ruling(ruling) {
        return Err(refusal(8));
    }
    let mut text = format!("ruling\t1\t{}\t{}\n", ruling.n, ruling.strikes.len());
    for strike in &ruling.strikes {
        let (reason, witness) = numbers_of(strike.reason);
        text += &format!(
            "S\t{}\t{}\t{reason}\t{witness}\n",
            strike.trainee, strike.depot
        );
    }
    match &ruling.ending {
        Ending::Placed(table) => {
            for (at, depot) in table.iter().enumerate() {
                text += &format!("A\t{}\t{depot}\n", at + 1);
            }
        }
        Ending::NoneHeld(trainee, depot) => text += &format!("N\t1\t{trainee}\t{depot}\n"),
        Ending::NoneRoom(trainee, depot) => text += &format!("N\t2\t{trainee}\t{depot}\n"),
    }
    text += "end\n";
    Ok(text.into_bytes())
}

/// The paper's numbers for a reason and its witness.
pub fn numbers_of(reason: Reason) -> (usize, usize) {
    match reason {
        Reason::Barred => (1, 0),
        Reason::HeldElsewhere(depot) => (2, depot),
        Reason::PostsGone => (3, 0),
        Reason::Passed(trainee) => (4, trainee),
    }
}
