//! Texts spoilt in many ways: most are refused, and some are still legal.

use crate::model::MOST_BYTES;
use crate::random::Random;

/// Bytes that part, end or spoil something.
const BYTES: [u8; 16] = [
    0, 9, 10, 13, 32, 43, 45, 48, 49, 57, 63, 65, 88, 127, 128, 255,
];

/// Fields at and past each limit, and fields of wrong form.
const FIELDS: [&str; 34] = [
    "0", "1", "2", "3", "4", "5", "63", "64", "65", "255", "256", "257", "1023", "1024", "1025",
    "4095", "4096", "4097", "65535", "99999", "100000", "00", "01", "?", "??", "?1", "", "+1",
    "-1", "1 ", "T", "D", "F", "end",
];

/// A text with one to three faults, or none.
pub fn damaged(random: &mut Random, text: &[u8]) -> Vec<u8> {
    let mut text = text.to_vec();
    for _ in 0..random.below(4) {
        text = once(random, text);
    }
    text
}

/// One fault, of a kind that is drawn.
fn once(random: &mut Random, text: Vec<u8>) -> Vec<u8> {
    match random.below(20) {
        0..=2 => byte_changed(random, text),
        3 => byte_added(random, text),
        4 => byte_dropped(random, text),
        5 => cut_short(random, text),
        6 => went_on(random, text),
        7..=10 => lines_moved(random, text),
        11..=14 => field_changed(random, text),
        15..=16 => fields_moved(random, text),
        17..=18 => list_grown(random, text),
        _ => text_at_limit(random, text),
    }
}

/// A byte that is special, or any.
fn byte(random: &mut Random) -> u8 {
    if random.percent(80) {
        *random.pick(&BYTES)
    } else {
        random.below(256) as u8
    }
}

/// One byte is another.
fn byte_changed(random: &mut Random, mut text: Vec<u8>) -> Vec<u8> {
    if !text.is_empty() {
        let at = random.below(text.len());
        text[at] = byte(random);
    }
    text
}

/// One byte more.
fn byte_added(random: &mut Random, mut text: Vec<u8>) -> Vec<u8> {
    let at = random.below(text.len() + 1);
    text.insert(at, byte(random));
    text
}

/// One byte less.
fn byte_dropped(random: &mut Random, mut text: Vec<u8>) -> Vec<u8> {
    if !text.is_empty() {
        text.remove(random.below(text.len()));
    }
    text
}

/// The end is lost: the last byte, or more.
fn cut_short(random: &mut Random, mut text: Vec<u8>) -> Vec<u8> {
    let length = if random.percent(50) {
        text.len().saturating_sub(1)
    } else {
        random.below(text.len() + 1)
    };
    text.truncate(length);
    text
}

/// Something follows the end.
fn went_on(random: &mut Random, mut text: Vec<u8>) -> Vec<u8> {
    let tails: [&[u8]; 5] = [b"\n", b"x", b"end\n", b"\0", b"\r\n"];
    let tail = *random.pick(&tails);
    text.extend_from_slice(tail);
    text
}

/// Lines dropped, doubled, swapped, or ended by CR and byte 10.
fn lines_moved(random: &mut Random, text: Vec<u8>) -> Vec<u8> {
    let mut lines: Vec<Vec<u8>> = text
        .split_inclusive(|&byte| byte == b'\n')
        .map(<[u8]>::to_vec)
        .collect();
    if lines.is_empty() {
        return text;
    }
    let at = random.below(lines.len());
    match random.below(4) {
        0 => {
            lines.remove(at);
        }
        1 => lines.insert(at, lines[at].clone()),
        2 => {
            let other = random.below(lines.len());
            lines.swap(at, other);
        }
        _ => {
            let end = lines[at].len() - 1;
            lines[at].insert(end, b'\r');
        }
    }
    lines.concat()
}

/// A text with a change to the fields of one line.
fn with_fields(
    random: &mut Random,
    text: &[u8],
    change: impl Fn(&mut Random, &mut Vec<Vec<u8>>),
) -> Vec<u8> {
    let mut lines: Vec<Vec<u8>> = text
        .split(|&byte| byte == b'\n')
        .map(<[u8]>::to_vec)
        .collect();
    let at = random.below(lines.len());
    let mut fields: Vec<Vec<u8>> = lines[at]
        .split(|&byte| byte == b'\t')
        .map(<[u8]>::to_vec)
        .collect();
    change(random, &mut fields);
    lines[at] = fields.join(&b'\t');
    lines.join(&b'\n')
}

/// A field is another: one off, one of its line, at or past a limit, or of wrong form.
fn field_changed(random: &mut Random, text: Vec<u8>) -> Vec<u8> {
    with_fields(random, &text, |random, fields| {
        let at = random.below(fields.len());
        fields[at] = match (number_of(&fields[at]), random.below(4)) {
            (Some(number), 0) => (number + 1).to_string().into_bytes(),
            (Some(number), 1) => number.saturating_sub(1).to_string().into_bytes(),
            (_, 2) => random.pick(fields).clone(),
            _ => random.pick(&FIELDS).as_bytes().to_vec(),
        };
    })
}

/// The number that a field says.
fn number_of(field: &[u8]) -> Option<usize> {
    std::str::from_utf8(field).ok()?.parse().ok()
}

/// Fields dropped, doubled, swapped or added.
fn fields_moved(random: &mut Random, text: Vec<u8>) -> Vec<u8> {
    with_fields(random, &text, |random, fields| {
        let at = random.below(fields.len());
        match random.below(4) {
            0 => {
                fields.remove(at);
            }
            1 => fields.insert(at, fields[at].clone()),
            2 => {
                let other = random.below(fields.len());
                fields.swap(at, other);
            }
            _ => fields.push(random.pick(&FIELDS).as_bytes().to_vec()),
        }
    })
}

/// A list says one entry more, and has it: its side may pass the limit.
fn list_grown(random: &mut Random, text: Vec<u8>) -> Vec<u8> {
    with_fields(random, &text, |random, fields| {
        let length = if fields[0] == b"D" { 3 } else { 2 };
        let Some(number) = fields.get(length).and_then(|field| number_of(field)) else {
            return;
        };
        fields[length] = (number + 1).to_string().into_bytes();
        fields.push(random.within(1, 64).to_string().into_bytes());
    })
}

/// The text is filled up to the longest that is read, or past it.
fn text_at_limit(random: &mut Random, mut text: Vec<u8>) -> Vec<u8> {
    let fillers: [&[u8]; 4] = [b"F\t1\t1\n", b"\n", b"9", b"\t"];
    let filler = *random.pick(&fillers);
    let inside = random.percent(50) && text.ends_with(b"end\n");
    if inside {
        text.truncate(text.len() - 4);
    }
    let length = MOST_BYTES + random.below(3) - 1;
    let missing = length.saturating_sub(text.len());
    text.extend(filler.iter().cycle().take(missing));
    text
}
