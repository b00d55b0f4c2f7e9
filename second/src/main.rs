//! The second program: answers a placement on standard input, or holds itself against exhaustive search.

use second::{answer, damage, generate, model, placement_text, random, self_check};
use std::io::{Read, Write};
use std::path::Path;
use std::process::ExitCode;
use std::time::{SystemTime, UNIX_EPOCH};

const USAGE: &str = "usage: second answer < PLACEMENT
       second self [NUMBER [SEED]]
       second texts FOLDER NUMBER [SEED]";

/// Goes by the first argument.
fn main() -> ExitCode {
    let words: Vec<String> = std::env::args().skip(1).collect();
    let words: Vec<&str> = words.iter().map(String::as_str).collect();
    let done = match words.as_slice() {
        ["answer"] => answer_input(),
        ["self", rest @ ..] if rest.len() <= 2 => hold(rest.first(), rest.get(1)),
        ["texts", folder, number, rest @ ..] if rest.len() <= 1 => {
            make_texts(folder, number, rest.first())
        }
        _ => Err(USAGE.to_string()),
    };
    match done {
        Ok(()) => ExitCode::SUCCESS,
        Err(wrong) => {
            eprintln!("{wrong}");
            ExitCode::FAILURE
        }
    }
}

/// Prints the answer; what is read before a failing read counts, and at most one byte past the limit is read.
fn answer_input() -> Result<(), String> {
    let mut input = Vec::new();
    let limit = model::MOST_BYTES as u64 + 1;
    let _ = std::io::stdin().lock().take(limit).read_to_end(&mut input);
    let text = answer::answer(&input);
    std::io::stdout()
        .write_all(&text)
        .map_err(|error| error.to_string())
}

/// Runs the comparison with exhaustive search.
fn hold(number: Option<&&str>, seed: Option<&&str>) -> Result<(), String> {
    let number = number_or(number, 5000)? as usize;
    let seed = number_or(seed, now())?;
    println!("seed {seed}, {number} placements");
    let counts = self_check::run(seed, number)?;
    println!("{counts:?}");
    Ok(())
}

/// Writes numbered texts, sound and spoilt, each beside what the program prints for it.
fn make_texts(folder: &str, number: &str, seed: Option<&&str>) -> Result<(), String> {
    let number = number_or(Some(&number), 0)?;
    let seed = number_or(seed, now())?;
    println!("seed {seed}, {number} texts");
    let mut random = random::Random::new(seed);
    for turn in 1..=number {
        let placement = generate::any(&mut random);
        let text = placement_text::write(&placement).map_err(|refusal| format!("{refusal:?}"))?;
        let text = damage::damaged(&mut random, &text);
        keep(folder, turn, "in", &text)?;
        keep(folder, turn, "out", &answer::answer(&text))?;
    }
    Ok(())
}

/// One numbered file of a folder.
fn keep(folder: &str, turn: u64, ending: &str, bytes: &[u8]) -> Result<(), String> {
    let path = Path::new(folder).join(format!("{turn:06}.{ending}"));
    std::fs::write(&path, bytes).map_err(|error| format!("{}: {error}", path.display()))
}

/// A number of the command line, or the one that stands for it.
fn number_or(word: Option<&&str>, other: u64) -> Result<u64, String> {
    match word {
        None => Ok(other),
        Some(word) => word.parse().map_err(|_| USAGE.to_string()),
    }
}

/// A seed that differs from run to run.
fn now() -> u64 {
    SystemTime::now()
        .duration_since(UNIX_EPOCH)
        .map_or(1, |time| time.as_nanos() as u64)
}
