//! The engines that are measured beside the proved library, held against the second implementation.

use second::checker::{self, Checked};
use second::damage::damaged;
use second::engines::checker::{check_ranked, check_searching};
use second::engines::ending::Ended;
use second::engines::queue::solve_queued;
use second::engines::sweeps::{solve_ranked, solve_searching, Ruled};
use second::engines::view::View;
use second::engines::whole::{answer, Solve};
use second::engines::{reader, writer};
use second::layout::{laid, LentRuling, Tables, ENTRIES, HEADS, ORDERS, RECORD, TABLE};
use second::model::{refusal, Ending, Placement, Refusal, Ruling, MOST_BYTES};
use second::random::Random;
use second::self_check::altered;
use second::{generate, placement_text, solver};

/// Whole tables that hold something else.
fn poison() -> Tables {
    Tables {
        heads: vec![7; HEADS],
        entries: vec![7; ENTRIES],
        orders: vec![7; ORDERS],
    }
}

/// Numbers, table and record with which an engine answers, over cells that held something else.
fn ruled(solve: Solve, placement: &Placement) -> Result<LentRuling, Refusal> {
    let tables = Tables::of(placement).over(&poison());
    let (mut table, mut record) = ([7; TABLE], [7; RECORD]);
    let Ruled { n, strikes, ended } = solve(View::of(&tables), &mut table, &mut record)?;
    let (kind, trainee, depot) = match ended {
        Ended::Placed => (0, 0, 0),
        Ended::NoneHeld(trainee, depot) => (1, trainee, depot),
        Ended::NoneRoom(trainee, depot) => (2, trainee, depot),
    };
    Ok(LentRuling {
        n,
        strikes,
        kind,
        trainee,
        depot,
        table: table.to_vec(),
        record: record.to_vec(),
    })
}

/// The same by the second implementation.
fn expected(placement: &Placement) -> Result<LentRuling, Refusal> {
    let mut lent = LentRuling::of(&solver::solve(placement)?);
    lent.table = laid(&lent.table, &[7; TABLE]);
    lent.record = laid(&lent.record, &[7; RECORD]);
    Ok(lent)
}

/// A ruling with its struck pairs in order and without reasons.
fn pairs_only(ruling: Result<LentRuling, Refusal>) -> Result<LentRuling, Refusal> {
    let mut ruling = ruling?;
    let used = 4 * usize::from(ruling.strikes);
    let mut pairs: Vec<_> = ruling.record[..used]
        .chunks(4)
        .map(|cells| cells[..2].to_vec())
        .collect();
    pairs.sort();
    ruling.record = pairs.concat();
    Ok(ruling)
}

/// The same strikes from the sweeps; the same struck pairs, ending and table from the queue.
#[test]
fn solvers() {
    let mut random = Random::new(11);
    for _ in 0..3000 {
        let placement = generate::any(&mut random);
        let expected = expected(&placement);
        assert_eq!(ruled(solve_searching, &placement), expected);
        assert_eq!(ruled(solve_ranked, &placement), expected);
        let queued = pairs_only(ruled(solve_queued, &placement));
        assert_eq!(queued, pairs_only(expected));
    }
}

/// A ruling as the engines take it.
fn lent(ruling: &Ruling) -> (Ruled, Vec<u16>, Vec<u16>) {
    let lent = LentRuling::of(ruling);
    let ruled = Ruled {
        n: lent.n,
        strikes: lent.strikes,
        ended: match ruling.ending {
            Ending::Placed(_) => Ended::Placed,
            Ending::NoneHeld(..) => Ended::NoneHeld(lent.trainee, lent.depot),
            Ending::NoneRoom(..) => Ended::NoneRoom(lent.trainee, lent.depot),
        },
    };
    let table = laid(&lent.table, &[7; TABLE]);
    (ruled, table, laid(&lent.record, &[7; RECORD]))
}

/// The same answer to sound and altered rulings.
#[test]
fn checkers() {
    let mut random = Random::new(14);
    for _ in 0..1000 {
        let placement = generate::any(&mut random);
        let Ok(mut ruling) = solver::solve(&placement) else {
            continue;
        };
        let tables = Tables::of(&placement).over(&poison());
        for _ in 0..3 {
            let said = checker::check(&placement, &ruling).map(|said| match said {
                Checked::Accepted => None,
                Checked::NotAllowed(step) => Some(step as u16),
            });
            let (ruled, table, record) = lent(&ruling);
            let searching = check_searching(View::of(&tables), &ruled, &table, &record);
            assert_eq!(searching, said);
            let ranked = check_ranked(View::of(&tables), &ruled, &table, &record);
            assert_eq!(ranked, said);
            ruling = altered(&mut random, &ruling, placement.depots.len());
        }
    }
}

/// Texts, sound and spoilt: the same cells or the same refusal, the same text back, and the same answer to the whole.
#[test]
fn texts() {
    let mut random = Random::new(12);
    for _ in 0..6000 {
        let placement = generate::any(&mut random);
        let text = damaged(&mut random, &placement_text::write(&placement).unwrap());
        let mut lent = poison();
        let read = reader::read(&text, &mut lent.heads, &mut lent.entries, &mut lent.orders);
        let said = placement_text::read(&text);
        let cells = said.as_ref().map(|said| Tables::of(said).over(&poison()));
        assert_eq!(lent, cells.unwrap_or(poison()));
        assert_eq!(read, said.map(|_| ()));
        let mut out = vec![0; MOST_BYTES];
        if read.is_ok() {
            let bytes = writer::write_placement(View::of(&lent), &mut out).unwrap();
            assert_eq!(out[..bytes], text);
        }
        let bytes = answer(&text, &mut out, solve_searching);
        assert_eq!(out[..bytes], second::answer::answer(&text));
    }
}

/// Short parts are refused 1, and cells that no reader fills 8.
#[test]
fn refused() {
    let placement = generate::full_size(&mut Random::new(13));
    let mut tables = Tables::of(&placement).over(&poison());
    let (mut table, mut record) = ([0; TABLE], [0; RECORD]);
    let (_, short) = record.split_first_mut().unwrap();
    let said = solve_searching(View::of(&tables), &mut table, short);
    assert_eq!(said, Err(refusal(1)));
    tables.heads[3] += 1;
    let said = solve_searching(View::of(&tables), &mut table, &mut record);
    assert_eq!(said, Err(refusal(8)));
}
