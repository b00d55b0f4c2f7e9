//! The examples of document 01, "Examples on each side".

mod common;
use common::{bytes, placement, placement_refused, prints};
use second::model::MOST_ENTRIES;
use second::placement_text;

/// No trainees and no depots.
#[test]
fn nobody() {
    prints("placement 1 0 0/end/", "ruling 1 0 0/end/");
}

/// One mutual pair: without posts, and held with a post.
#[test]
fn one_pair() {
    prints(
        "placement 1 1 1/T 1 1 1/D 1 0 1 1/end/",
        "ruling 1 1 1/S 1 1 3 0/A 1 0/end/",
    );
    prints(
        "placement 1 1 1/T 1 1 1/D 1 1 1 1/F 1 1/end/",
        "ruling 1 1 0/A 1 1/end/",
    );
}

/// A pair both held and barred.
#[test]
fn held_and_barred() {
    prints(
        "placement 1 1 1/T 1 1 1/D 1 1 1 1/F 1 1/X 1 1/end/",
        "ruling 1 1 1/S 1 1 1 0/N 1 1 1/end/",
    );
}

/// A trainee held at two depots.
#[test]
fn held_twice() {
    prints(
        "placement 1 1 2/T 1 2 1 2/D 1 1 1 1/D 2 1 1 1/F 1 1/F 1 2/end/",
        "ruling 1 1 2/S 1 1 2 2/S 1 2 2 1/N 1 1 1/end/",
    );
}

/// An empty list is received, and `?` is not.
#[test]
fn empty_list() {
    prints(
        "placement 1 1 1/T 1 1 1/D 1 1 0/end/",
        "ruling 1 1 0/A 1 0/end/",
    );
    prints("placement 1 1 1/T 1 1 1/D 1 1 ?/end/", "refused 7 3/");
}

/// A barred pair still blocks.
#[test]
fn barred_blocks() {
    prints(
        "placement 1 2 1/T 1 1 1/T 2 1 1/D 1 2 2 1 2/X 1 1/end/",
        "ruling 1 2 2/S 1 1 1 0/S 2 1 4 1/N 2 1 1/end/",
    );
}

/// The whole case, and the same with a barred pair.
#[test]
fn whole_case() {
    let lists = "placement 1 3 2/T 1 2 1 2/T 2 2 1 2/T 3 1 1/D 1 1 3 2 1 3/D 2 1 2 1 2/";
    prints(
        &format!("{lists}end/"),
        "ruling 1 3 3/S 1 1 3 0/S 2 2 3 0/S 3 1 3 0/A 1 2/A 2 1/A 3 0/end/",
    );
    prints(
        &format!("{lists}X 2 1/end/"),
        "ruling 1 3 4/S 1 1 3 0/S 2 1 1 0/S 2 2 3 0/S 3 1 3 0/N 2 1 1/end/",
    );
}

/// Posts at and past their limit.
#[test]
fn most_posts() {
    assert_eq!(
        placement("placement 1 0 1/D 1 256 0/end/").depots[0].posts,
        Some(256)
    );
    placement_refused("placement 1 0 1/D 1 257 0/end/", 4, 2);
}

/// An empty text, and a leading zero.
#[test]
fn wrong_form() {
    placement_refused("", 3, 1);
    placement_refused("placement 1 01 0/end/", 3, 1);
}

/// Lists of the given lengths, each naming 1, 2, ..
fn with_lengths(lengths: &[usize]) -> String {
    let mut text = format!("placement 1 {} 64/", lengths.len());
    for (at, &length) in lengths.iter().enumerate() {
        text += &format!("T {} {length}", at + 1);
        (1..=length).for_each(|entry| text += &format!(" {entry}"));
        text += "/";
    }
    (1..=64).for_each(|depot| text += &format!("D {depot} 1 0/"));
    text + "end/"
}

/// The 4,096th entry is read, and a length that reaches 4,097 is not.
#[test]
fn most_entries() {
    let mut lengths = vec![64; 64];
    let read = placement_text::read(&bytes(&with_lengths(&lengths))).unwrap();
    assert_eq!(
        read.trainees.iter().flatten().flatten().count(),
        MOST_ENTRIES
    );
    lengths.extend([0, 1]);
    placement_refused(&with_lengths(&lengths), 6, 67);
}
