//! The points that document 01 leaves open, as they are read here: reading a placement, and the solver.

mod common;
use common::{bytes, placement, placement_refused, prints};
use second::model::Placement;
use second::placement_text;
use second::solver::solve;

/// Digits: form before range.
#[test]
fn digits() {
    placement_refused("placement 1 00 0/end/", 3, 1);
    placement_refused("placement 1 100000 0/end/", 3, 1);
    placement_refused("placement 1 99999 0/end/", 4, 1);
    placement_refused("placement 1 99999x 0/end/", 3, 1);
}

/// Running numbers and the edition can only be what they are.
#[test]
fn running_numbers() {
    placement_refused("placement 2 0 0/end/", 3, 1);
    placement_refused("placement 1 2 0/T 2 0/T 2 0/end/", 3, 2);
    placement_refused("placement 1 1 0/T 99999 0/end/", 3, 2);
}

/// Too many trainees or depots are found before the rest of the line.
#[test]
fn too_many() {
    placement_refused("placement 1 257 0/end/", 4, 1);
    placement_refused("placement 1 0 65/end/", 4, 1);
    placement_refused("placement 1 300 x/", 4, 1);
}

/// A length out of range, and entries too few and too many.
#[test]
fn lengths() {
    placement_refused("placement 1 1 1/T 1 2 1 1/D 1 1 0/end/", 4, 2);
    placement_refused("placement 1 1 2/T 1 2 1/D 1 1 0/D 2 1 0/end/", 3, 2);
    placement_refused("placement 1 1 2/T 1 1 1 2/D 1 1 0/D 2 1 0/end/", 3, 2);
    placement_refused("placement 1 1 2/T 1 1 9 1/D 1 1 0/D 2 1 0/end/", 4, 2);
}

/// Entries: 0, a repeat, and out of range before a repeat.
#[test]
fn entries() {
    placement_refused("placement 1 1 2/T 1 1 0/", 4, 2);
    placement_refused("placement 1 1 2/T 1 2 1 1/", 5, 2);
    placement_refused("placement 1 1 2/T 1 2 3 3/", 4, 2);
}

/// The 1,025th order is refused at its first field, another word there as a word.
#[test]
fn too_many_orders() {
    let lists = "placement 1 1 1/T 1 0/D 1 1 0/";
    let orders = "F 1 1/".repeat(1024);
    assert_eq!(
        placement(&format!("{lists}{orders}end/")).orders.len(),
        1024
    );
    placement_refused(&format!("{lists}{orders}X 9 x/"), 6, 1028);
    placement_refused(&format!("{lists}{orders}Y 1 1/"), 3, 1028);
}

/// `?` stands alone in a length or in posts, and nothing follows the length.
#[test]
fn not_received() {
    let read = placement("placement 1 1 1/T 1 ?/D 1 ? ?/end/");
    assert_eq!(
        (
            read.trainees[0].clone(),
            read.depots[0].posts,
            read.depots[0].list.clone()
        ),
        (None, None, None)
    );
    placement_refused("placement 1 1 1/T 1 ? 1/D 1 1 0/end/", 3, 2);
    placement_refused("placement 1 1 1/T 1 ? /D 1 1 0/end/", 3, 2);
    placement_refused("placement 1 1 1/T 1 1 ?/D 1 1 0/end/", 3, 2);
    placement_refused("placement 1 1 1/T 1 ??/D 1 1 0/end/", 3, 2);
    placement_refused("placement 1 ? 1/", 3, 1);
}

/// A text that ends too early.
#[test]
fn ends_early() {
    placement_refused("placement 1 1 1/", 3, 2);
    placement_refused("placement 1 0 0/", 3, 2);
    placement_refused("placement 1 0 0/end", 3, 2);
    placement_refused("placement 1 1 1/T 1 1 1", 3, 2);
    placement_refused("placement 1 1 2/T 1 2 1 1", 5, 2);
    placement_refused("placement 1 1 2/T 1 1 3", 4, 2);
}

/// A text that goes on.
#[test]
fn goes_on() {
    placement_refused("placement 1 0 0/end//", 3, 3);
    placement_refused("placement 1 0 0/end/x", 3, 3);
    placement_refused("placement 1 0 0/end x/", 3, 2);
    placement_refused("placement 1 0 0/end /", 3, 2);
}

/// Bytes that part nothing, empty fields and empty lines.
#[test]
fn other_bytes() {
    for text in [
        "placement 1 0 0\r/end/",
        "placement 1 0 0\0/end/",
        "placement 1 +0 0/end/",
        "placement 1  0/end/",
        "/",
    ] {
        placement_refused(text, 3, 1);
    }
    placement_refused("placement 1 0 0/end\r/", 3, 2);
    placement_refused("placement 1 0 0//end/", 3, 2);
    let spaced = b"placement 1\t0\t0\nend\n";
    assert_eq!(placement_text::read(spaced), Err(common::at(3, 1)));
    let high = b"placement\t1\t\xb2\t0\nend\n";
    assert_eq!(placement_text::read(high), Err(common::at(3, 1)));
}

/// Orders where there is nobody, and orders that repeat, contradict and join strangers.
#[test]
fn orders() {
    placement_refused("placement 1 0 1/D 1 1 0/F 1 1/end/", 4, 3);
    placement_refused("placement 1 1 0/T 1 0/X 1 1/end/", 4, 3);
    placement_refused("placement 1 1 1/T 1 0/D 1 1 0/F 1 0/end/", 4, 4);
    let read = placement("placement 1 1 1/T 1 0/D 1 1 0/F 1 1/X 1 1/F 1 1/end/");
    assert_eq!(read.orders.len(), 3);
}

/// The longest text that is read, and one byte more.
#[test]
fn longest_text() {
    let mut text = bytes("x/");
    text.resize(65_536, b'\n');
    assert_eq!(placement_text::read(&text), Err(common::at(3, 1)));
    text.push(b'\n');
    assert_eq!(placement_text::read(&text), Err(common::at(2, 0)));
    assert_eq!(second::answer::answer(&text), b"refused\t2\t0\n");
}

/// A strike is seen at once, and the sweep goes on from there.
#[test]
fn seen_at_once() {
    prints(
        "placement 1 3 1/T 1 1 1/T 2 1 1/T 3 1 1/D 1 2 3 2 1 3/X 2 1/end/",
        "ruling 1 3 3/S 2 1 1 0/S 3 1 3 0/S 1 1 4 2/N 2 1 1/end/",
    );
}

/// The smallest witness is the smallest number, not the best ranked.
#[test]
fn smallest_witness() {
    prints(
        "placement 1 3 1/T 1 1 1/T 2 1 1/T 3 1 1/D 1 3 3 3 1 2/X 3 1/end/",
        "ruling 1 3 3/S 3 1 1 0/S 1 1 4 3/S 2 1 4 1/N 2 1 1/end/",
    );
}

/// The smallest depot at which a trainee is held elsewhere, whichever order stands first.
#[test]
fn smallest_hold() {
    prints(
        "placement 1 1 3/T 1 3 1 2 3/D 1 1 1 1/D 2 1 1 1/D 3 1 1 1/F 1 3/F 1 2/end/",
        "ruling 1 1 3/S 1 1 2 2/S 1 2 2 3/S 1 3 2 2/N 1 1 3/end/",
    );
}

/// A None of kind 2 names the smallest depot, and then the smallest trainee.
#[test]
fn smallest_depot() {
    prints(
        "placement 1 2 2/T 1 1 2/T 2 1 1/D 1 1 1 2/D 2 1 1 1/X 1 2/X 2 1/end/",
        "ruling 1 2 2/S 1 2 1 0/S 2 1 1 0/N 2 2 1/end/",
    );
}

/// A witness of reason 2 may be a stranger, also where the trainee is held here too.
#[test]
fn held_at_a_stranger() {
    prints(
        "placement 1 1 2/T 1 1 1/D 1 1 1 1/D 2 1 0/F 1 1/F 1 2/end/",
        "ruling 1 1 1/S 1 1 2 2/N 1 1 1/end/",
    );
}

/// Reason 3 counts a trainee whose own pair with the depot is struck.
#[test]
fn counts_the_struck() {
    prints(
        "placement 1 2 1/T 1 1 1/T 2 1 1/D 1 1 2 1 2/X 1 1/end/",
        "ruling 1 2 2/S 1 1 1 0/S 2 1 3 0/N 2 1 1/end/",
    );
}

/// What no reader could have read is not written and not solved.
#[test]
fn not_written() {
    let sound = placement("placement 1 2 2/T 1 2 1 2/T 2 ?/D 1 1 0/D 2 ? 1 1/F 1 1/end/");
    let spoils: [fn(&mut Placement); 8] = [
        |wrong| wrong.trainees[0] = Some(vec![1, 1]),
        |wrong| wrong.trainees[0] = Some(vec![0]),
        |wrong| wrong.trainees[0] = Some(vec![3]),
        |wrong| wrong.trainees.resize(257, None),
        |wrong| wrong.depots.resize(65, wrong.depots[0].clone()),
        |wrong| wrong.depots[0].posts = Some(257),
        |wrong| wrong.orders[0].depot = 3,
        |wrong| wrong.orders.resize(1025, wrong.orders[0]),
    ];
    for spoil in spoils {
        let mut wrong = sound.clone();
        spoil(&mut wrong);
        assert_eq!(placement_text::write(&wrong), Err(common::at(8, 0)));
        assert_eq!(solve(&wrong), Err(common::at(8, 0)));
    }
}

/// What is missing is named by its line, trainees first, also where it could not matter.
#[test]
fn first_missing() {
    prints("placement 1 2 1/T 1 0/T 2 ?/D 1 0 ?/end/", "refused 7 3/");
    prints("placement 1 1 2/T 1 0/D 1 0 ?/D 2 ? 0/end/", "refused 7 3/");
    prints("placement 1 1 2/T 1 0/D 1 0 0/D 2 ? 0/end/", "refused 7 4/");
}
