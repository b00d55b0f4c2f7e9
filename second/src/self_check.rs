//! The parts of this program held against each other and against every matching of small placements.

use crate::answer::answer;
use crate::checker::{check, Checked};
use crate::damage::damaged;
use crate::exhaustive::Small;
use crate::generate;
use crate::model::*;
use crate::placement_text;
use crate::random::Random;
use crate::ruling_text;
use crate::solver::solve;
use crate::stability::{test_table, Tested};

/// What a run did.
#[derive(Debug, Default)]
pub struct Counts {
    pub placed: usize,
    pub none: usize,
    pub altered_accepted: usize,
    pub texts_taken: usize,
    pub texts_refused: usize,
}

/// A run of so many tiny placements and as many spoilt texts, or the first thing that is wrong.
pub fn run(seed: u64, number: usize) -> Result<Counts, String> {
    let mut random = Random::new(seed);
    let mut counts = Counts::default();
    for turn in 0..number {
        let placement = generate::tiny(&mut random);
        solved(&placement, &mut random, &mut counts)
            .map_err(|wrong| told(turn, &wrong, &placement))?;
        let other = generate::any(&mut random);
        texts(&other, &mut random, &mut counts).map_err(|wrong| told(turn, &wrong, &other))?;
    }
    Ok(counts)
}

/// A fault with the placement that shows it.
fn told(turn: usize, wrong: &str, placement: &Placement) -> String {
    let text = placement_text::write(placement).unwrap_or_default();
    format!("turn {turn}: {wrong}\n{}", String::from_utf8_lossy(&text))
}

/// A fact that must hold.
fn expect(fact: bool, wrong: &str) -> Result<(), String> {
    if fact {
        Ok(())
    } else {
        Err(wrong.to_string())
    }
}

/// The solver, the checker and the stability test on a placement whose tables are few.
fn solved(placement: &Placement, random: &mut Random, counts: &mut Counts) -> Result<(), String> {
    let small = Small::of(placement).ok_or("something was not received")?;
    let respecting = small.respecting();
    let ruling = solve(placement).map_err(|_| "the solver refuses")?;
    true_ruling(&small, &respecting, &ruling)?;
    let orders = placement.orders.is_empty();
    expect(
        !orders || !respecting.is_empty(),
        "no orders, and no stable matching",
    )?;
    match ruling.ending {
        Ending::Placed(_) => counts.placed += 1,
        _ => counts.none += 1,
    }
    let accepted = Ok(Checked::Accepted);
    expect(
        check(placement, &ruling) == accepted,
        "the checker turns the solver's ruling down",
    )?;
    lowest_reasons(placement, &ruling)?;
    first_ending(placement, &small, &ruling)?;
    for _ in 0..4 {
        let other = altered(random, &ruling, placement.depots.len());
        if check(placement, &other) == accepted {
            true_ruling(&small, &respecting, &other)?;
            counts.altered_accepted += usize::from(other != ruling);
        }
    }
    for table in small.tables() {
        true_test(
            &small,
            &table,
            test_table(placement, &table).map_err(|_| "the test refuses")?,
        )?;
    }
    Ok(())
}

/// What a ruling claims is so: no strike is in a respecting matching, and the ending says whether there is one, and the best.
fn true_ruling(small: &Small, respecting: &[Vec<usize>], ruling: &Ruling) -> Result<(), String> {
    for strike in &ruling.strikes {
        let cell = strike.trainee - 1;
        let unused = respecting.iter().all(|table| table[cell] != strike.depot);
        expect(unused, "a struck pair is in a respecting matching")?;
    }
    expect(
        ruling.strikes.len() <= small.mutual_pairs().len(),
        "more strikes than mutual pairs",
    )?;
    let Ending::Placed(table) = &ruling.ending else {
        return expect(
            respecting.is_empty(),
            "None, and there is a respecting matching",
        );
    };
    expect(
        respecting.contains(table),
        "the table is no respecting matching",
    )?;
    let best = respecting.iter().all(|other| {
        (1..=table.len()).all(|trainee| {
            small.rank(trainee, table[trainee - 1]) <= small.rank(trainee, other[trainee - 1])
        })
    });
    expect(best, "another respecting matching is better for a trainee")
}

/// Each strike has the lowest reason and the smallest witness that the checker allows there.
fn lowest_reasons(placement: &Placement, ruling: &Ruling) -> Result<(), String> {
    let elsewhere = (1..=placement.depots.len()).map(Reason::HeldElsewhere);
    let passed = (1..=ruling.n).map(Reason::Passed);
    let mut reasons = vec![Reason::Barred];
    reasons.extend(elsewhere.chain([Reason::PostsGone]).chain(passed));
    for (at, strike) in ruling.strikes.iter().enumerate() {
        let lowest = reasons.iter().find(|&&reason| {
            let mut other = ruling.clone();
            other.strikes.truncate(at + 1);
            other.strikes[at].reason = reason;
            check(placement, &other) != Ok(Checked::NotAllowed(at + 1))
        });
        let said = Some(&strike.reason);
        expect(
            lowest == said,
            "a strike has a lower reason or a smaller witness",
        )?;
    }
    Ok(())
}

/// The ending is the first that the checker allows: a held pair in file order, the table, the smallest depot and then trainee.
fn first_ending(placement: &Placement, small: &Small, ruling: &Ruling) -> Result<(), String> {
    let held = placement
        .orders
        .iter()
        .filter(|order| order.kind == Kind::Held);
    let held = held.map(|order| Ending::NoneHeld(order.trainee, order.depot));
    let placed = small.tables().into_iter().map(Ending::Placed);
    let mut endings: Vec<Ending> = held.chain(placed).collect();
    for depot in 1..=placement.depots.len() {
        endings.extend((1..=ruling.n).map(|trainee| Ending::NoneRoom(trainee, depot)));
    }
    let first = endings.into_iter().find(|ending| {
        let mut other = ruling.clone();
        other.ending = ending.clone();
        check(placement, &other) == Ok(Checked::Accepted)
    });
    expect(
        first.as_ref() == Some(&ruling.ending),
        "another ending comes first",
    )
}

/// What the stability test names is so, and nothing comes before it.
fn true_test(small: &Small, table: &[usize], said: Tested) -> Result<(), String> {
    let mutual = small.mutual_pairs();
    let stranger = |trainee: &usize| {
        table[trainee - 1] != 0 && !mutual.contains(&(*trainee, table[trainee - 1]))
    };
    let expected = if let Some(trainee) = (1..=table.len()).find(stranger) {
        Tested::NotMutual(trainee)
    } else if !small.is_matching(table) {
        let full = |depot: &usize| {
            let mut cut = table.to_vec();
            cut.iter_mut()
                .filter(|cell| **cell != *depot)
                .for_each(|cell| *cell = 0);
            !small.is_matching(&cut)
        };
        Tested::OverPosts((1..).find(full).expect("a depot is over its posts"))
    } else {
        match mutual.into_iter().find(|&pair| small.blocks(table, pair)) {
            Some((trainee, depot)) => Tested::Blocking(trainee, depot),
            None => Tested::Stable,
        }
    };
    expect(said == expected, "the stability test names something else")
}

/// A ruling with a change: a strike dropped, moved, or for another reason, or another ending.
pub fn altered(random: &mut Random, ruling: &Ruling, m: usize) -> Ruling {
    let mut other = ruling.clone();
    if ruling.n == 0 || m == 0 {
        return other;
    }
    let (trainee, depot) = (random.within(1, ruling.n), random.within(1, m));
    let strikes = other.strikes.len();
    match random.below(6) {
        0 if strikes > 0 => {
            other.strikes.remove(random.below(strikes));
        }
        1 if strikes > 0 => {
            let at = random.below(strikes);
            other.strikes.swap(0, at);
        }
        2 => random.shuffle(&mut other.strikes),
        3 if strikes > 0 => {
            let reasons = [
                Reason::Barred,
                Reason::HeldElsewhere(depot),
                Reason::PostsGone,
                Reason::Passed(trainee),
            ];
            other.strikes[random.below(strikes)].reason = *random.pick(&reasons);
        }
        4 => other.ending = Ending::NoneHeld(trainee, depot),
        _ => other.ending = Ending::NoneRoom(trainee, depot),
    }
    other
}

/// Reading and writing give back what was there, and a spoilt text is refused or is read as it stands.
fn texts(placement: &Placement, random: &mut Random, counts: &mut Counts) -> Result<(), String> {
    let text = placement_text::write(placement).map_err(|_| "the writer refuses")?;
    expect(text.len() <= MOST_BYTES, "a text is too long")?;
    expect(
        placement_text::read(&text).as_ref() == Ok(placement),
        "another placement is read back",
    )?;
    let printed = answer(&text);
    if let Ok(ruling) = solve(placement) {
        expect(
            ruling_text::read(&printed) == Ok(ruling.clone()),
            "another ruling is read back",
        )?;
        expect(
            check(placement, &ruling) == Ok(Checked::Accepted),
            "the ruling isn't accepted",
        )?;
        let spoilt = damaged(random, &printed);
        if let Ok(other) = ruling_text::read(&spoilt) {
            expect(
                ruling_text::write(&other) == Ok(spoilt),
                "a ruling is not written as it was read",
            )?;
        }
    }
    let spoilt = damaged(random, &text);
    match placement_text::read(&spoilt) {
        Ok(other) => {
            counts.texts_taken += 1;
            expect(
                placement_text::write(&other) == Ok(spoilt),
                "a text is not written as it was read",
            )
        }
        Err(refusal) => {
            counts.texts_refused += 1;
            let lines = spoilt.iter().filter(|&&byte| byte == b'\n').count();
            let said = format!("refused\t{}\t{}\n", refusal.number, refusal.line);
            expect(
                refusal.line <= lines + 1 && answer(&spoilt) == said.into_bytes(),
                "a refusal is wrong",
            )
        }
    }
}
