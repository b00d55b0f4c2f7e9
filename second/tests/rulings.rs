//! The ruling text, the checker and the stability test, as document 01 says.

mod common;
use common::{at, placement, ruling, ruling_refused};
use second::checker::{check, Checked};
use second::model::{Ending, Reason};
use second::ruling_text;
use second::stability::{test_table, Tested};

const WHOLE: &str = "placement 1 3 2/T 1 2 1 2/T 2 2 1 2/T 3 1 1/D 1 1 3 2 1 3/D 2 1 2 1 2/end/";
const RULED: &str = "ruling 1 3 3/S 1 1 3 0/S 2 2 3 0/S 3 1 3 0/A 1 2/A 2 1/A 3 0/end/";

/// Witnesses, reasons, kinds and depots out of range.
#[test]
fn ranges() {
    for strike in [
        "S 1 1 1 1",
        "S 1 1 3 1",
        "S 1 1 2 0",
        "S 1 1 2 65",
        "S 1 1 4 0",
        "S 1 1 4 4",
        "S 1 1 0 0",
        "S 1 1 5 0",
    ] {
        ruling_refused(
            &format!("ruling 1 3 1/{strike}/A 1 0/A 2 0/A 3 0/end/"),
            4,
            2,
        );
    }
    ruling_refused("ruling 1 3 1/S 4 1 1 0/", 4, 2);
    ruling_refused("ruling 1 3 1/S 1 65 1 0/", 4, 2);
    ruling_refused("ruling 1 3 1/S 1 0 1 0/", 4, 2);
    ruling_refused("ruling 1 3 0/N 3 1 1/end/", 4, 2);
    ruling_refused("ruling 1 3 0/N 1 4 1/end/", 4, 2);
    ruling_refused("ruling 1 1 0/A 1 65/end/", 4, 2);
    ruling_refused("ruling 1 257 0/", 4, 1);
    ruling_refused("ruling 1 0 4097/", 4, 1);
    assert_eq!(
        ruling("ruling 1 1 1/S 1 64 4 1/A 1 64/end/").strikes[0].reason,
        Reason::Passed(1)
    );
}

/// What may follow the strikes.
#[test]
fn endings() {
    assert_eq!(ruling("ruling 1 0 0/end/").ending, Ending::Placed(vec![]));
    ruling_refused("ruling 1 0 0/N 1 1 1/end/", 4, 2);
    ruling_refused("ruling 1 0 0/A 1 1/end/", 3, 2);
    ruling_refused("ruling 1 1 0/end/", 3, 2);
    ruling_refused("ruling 1 2 0/A 1 0/N 1 1 1/end/", 3, 3);
    ruling_refused("ruling 1 2 0/A 1 0/A 1 0/end/", 3, 3);
    ruling_refused("ruling 1 2 0/A 1 0/A 2 0/A 3 0/end/", 3, 4);
    ruling_refused("ruling 1 2 0/A 1 0/A 2 0/", 3, 4);
    ruling_refused("ruling 1 1 0/N 1 1 1/end", 3, 3);
    ruling_refused("ruling 1 1 0/N 1 1 1/end//", 3, 4);
    ruling_refused("ruling 1 1 1/A 1 0/end/", 3, 2);
    ruling_refused("", 3, 1);
}

/// A pair struck twice is a legal text.
#[test]
fn struck_twice() {
    let twice = ruling("ruling 1 3 2/S 1 1 3 0/S 1 1 3 0/A 1 2/A 2 1/A 3 0/end/");
    assert_eq!(check(&placement(WHOLE), &twice), Ok(Checked::NotAllowed(2)));
}

/// The checker takes any order and any witness that fits, and names the first step that isn't allowed.
#[test]
fn any_order() {
    let whole = placement(WHOLE);
    assert_eq!(check(&whole, &ruling(RULED)), Ok(Checked::Accepted));
    let other = ruling("ruling 1 3 3/S 3 1 3 0/S 1 1 3 0/S 2 2 3 0/A 1 2/A 2 1/A 3 0/end/");
    assert_eq!(check(&whole, &other), Ok(Checked::Accepted));
    let early = ruling("ruling 1 3 3/S 2 2 3 0/S 1 1 3 0/S 3 1 3 0/A 1 2/A 2 1/A 3 0/end/");
    assert_eq!(check(&whole, &early), Ok(Checked::NotAllowed(1)));
    let short = ruling("ruling 1 3 2/S 1 1 3 0/S 3 1 3 0/A 1 2/A 2 1/A 3 0/end/");
    assert_eq!(check(&whole, &short), Ok(Checked::Accepted));
    let far = ruling("ruling 1 3 1/S 1 64 3 0/A 1 2/A 2 1/A 3 0/end/");
    assert_eq!(check(&whole, &far), Ok(Checked::NotAllowed(1)));
}

/// A pair is not struck because its trainee is held at this very depot.
#[test]
fn held_here() {
    let held = placement("placement 1 1 2/T 1 2 1 2/D 1 1 1 1/D 2 1 1 1/F 1 1/end/");
    let here = ruling("ruling 1 1 1/S 1 1 2 1/N 1 1 1/end/");
    assert_eq!(check(&held, &here), Ok(Checked::NotAllowed(1)));
    let elsewhere = ruling("ruling 1 1 1/S 1 2 2 1/A 1 1/end/");
    assert_eq!(check(&held, &elsewhere), Ok(Checked::Accepted));
}

/// An ending that doesn't fit is the step after the strikes.
#[test]
fn wrong_endings() {
    let whole = placement(WHOLE);
    for ending in [
        "A 1 2/A 2 1/A 3 1",
        "A 1 0/A 2 0/A 3 0",
        "N 1 1 1",
        "N 2 1 1",
        "N 2 3 1",
    ] {
        let other = ruling(&format!(
            "ruling 1 3 3/S 1 1 3 0/S 2 2 3 0/S 3 1 3 0/{ending}/end/"
        ));
        assert_eq!(
            check(&whole, &other),
            Ok(Checked::NotAllowed(4)),
            "{ending}"
        );
    }
}

/// 8 comes before 7.
#[test]
fn another_n() {
    let lacking = placement("placement 1 1 1/T 1 ?/D 1 1 0/end/");
    assert_eq!(check(&lacking, &ruling(RULED)), Err(at(8, 0)));
    assert_eq!(
        check(&lacking, &ruling("ruling 1 1 0/A 1 0/end/")),
        Err(at(7, 2))
    );
    assert_eq!(test_table(&lacking, &[0, 0]), Err(at(8, 0)));
    assert_eq!(test_table(&lacking, &[0]), Err(at(7, 2)));
}

/// What no reader could have read is not written.
#[test]
fn not_written() {
    let mut wrong = ruling(RULED);
    wrong.strikes[0].depot = 65;
    assert_eq!(ruling_text::write(&wrong), Err(at(8, 0)));
    let mut wrong = ruling(RULED);
    wrong.ending = Ending::NoneRoom(4, 1);
    assert_eq!(ruling_text::write(&wrong), Err(at(8, 0)));
}

/// The stability test, in its order.
#[test]
fn stability() {
    let whole = placement(WHOLE);
    for (table, said) in [
        ([2, 1, 0], Tested::Stable),
        ([2, 1, 2], Tested::NotMutual(3)),
        ([64, 1, 0], Tested::NotMutual(1)),
        ([1, 1, 2], Tested::NotMutual(3)),
        ([2, 2, 1], Tested::OverPosts(2)),
        ([1, 1, 1], Tested::OverPosts(1)),
        ([1, 2, 0], Tested::Blocking(2, 1)),
        ([0, 1, 0], Tested::Blocking(1, 2)),
        ([0, 0, 0], Tested::Blocking(1, 1)),
    ] {
        assert_eq!(test_table(&whole, &table), Ok(said), "{table:?}");
    }
    assert_eq!(test_table(&whole, &[65, 0, 0]), Err(at(8, 0)));
}

/// A depot without posts has no room.
#[test]
fn no_room() {
    let none = placement("placement 1 1 1/T 1 1 1/D 1 0 1 1/end/");
    assert_eq!(test_table(&none, &[0]), Ok(Tested::Stable));
    assert_eq!(test_table(&none, &[1]), Ok(Tested::OverPosts(1)));
}
