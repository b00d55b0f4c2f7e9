//! What the tests share: texts are written with spaces for tabs and `/` for byte 10.
#![allow(dead_code)]

use second::model::{Placement, Refusal, Ruling};
use second::{placement_text, ruling_text};

/// The bytes of a text that is written so.
pub fn bytes(text: &str) -> Vec<u8> {
    text.replace(' ', "\t").replace('/', "\n").into_bytes()
}

/// What the program prints.
pub fn printed(text: &str) -> String {
    let answer = second::answer::answer(&bytes(text));
    String::from_utf8(answer)
        .unwrap()
        .replace('\t', " ")
        .replace('\n', "/")
}

/// A placement that is read without fault.
pub fn placement(text: &str) -> Placement {
    placement_text::read(&bytes(text)).unwrap()
}

/// A ruling that is read without fault.
pub fn ruling(text: &str) -> Ruling {
    ruling_text::read(&bytes(text)).unwrap()
}

/// The refusal with this number at this line.
pub fn at(number: usize, line: usize) -> Refusal {
    Refusal { number, line }
}

/// The reader of placements gives this number at this line.
#[track_caller]
pub fn placement_refused(text: &str, number: usize, line: usize) {
    assert_eq!(
        placement_text::read(&bytes(text)),
        Err(at(number, line)),
        "{text}"
    );
}

/// The reader of rulings gives this number at this line.
#[track_caller]
pub fn ruling_refused(text: &str, number: usize, line: usize) {
    assert_eq!(
        ruling_text::read(&bytes(text)),
        Err(at(number, line)),
        "{text}"
    );
}

/// The program prints this.
#[track_caller]
pub fn prints(text: &str, expected: &str) {
    assert_eq!(printed(text), expected, "{text}");
}
