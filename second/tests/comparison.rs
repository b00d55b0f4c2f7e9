//! Random placements and spoilt texts: the solver against every matching, readers against writers.

use second::checker::{check, Checked};
use second::damage::damaged;
use second::model::{Ending, MOST_ENTRIES};
use second::random::Random;
use second::solver::solve;
use second::stability::{test_table, Tested};
use second::{generate, placement_text, self_check};

/// Thousands of tiny placements, each with all its tables, and as many texts.
#[test]
fn against_every_matching() {
    for seed in 1..=4 {
        let counts = self_check::run(seed, 2000).unwrap();
        assert!(counts.placed > 100 && counts.none > 100 && counts.altered_accepted > 100);
        assert!(counts.texts_taken > 100 && counts.texts_refused > 100);
    }
}

/// Full size: a stable table, accepted.
#[test]
fn full_size() {
    let mut random = Random::new(5);
    for _ in 0..5 {
        let placement = generate::full_size(&mut random);
        let entries = placement.trainees.iter().flatten().flatten().count();
        let returned = placement
            .depots
            .iter()
            .filter_map(|depot| depot.list.as_ref())
            .flatten()
            .count();
        assert_eq!((entries, returned), (MOST_ENTRIES, MOST_ENTRIES));
        let ruling = solve(&placement).unwrap();
        assert_eq!(check(&placement, &ruling), Ok(Checked::Accepted));
        let Ending::Placed(table) = ruling.ending else {
            panic!("no orders, and no table");
        };
        assert_eq!(test_table(&placement, &table), Ok(Tested::Stable));
    }
}

/// Every number that reading can give comes up.
#[test]
fn every_refusal() {
    let mut random = Random::new(6);
    let mut met = [0; 7];
    for _ in 0..20_000 {
        let placement = generate::any(&mut random);
        let text = damaged(&mut random, &placement_text::write(&placement).unwrap());
        match placement_text::read(&text) {
            Ok(_) => met[0] += 1,
            Err(refusal) => met[refusal.number] += 1,
        }
    }
    assert!(
        met[0] > 0 && met[2..].iter().all(|&times| times > 0),
        "{met:?}"
    );
}
