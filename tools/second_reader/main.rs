//! A second reader of shift books: replays a book, or holds the proved program against this replay.

mod compare;
#[cfg(test)]
mod figures;
mod findings;
mod generate;
mod proved;
mod replay;
mod speed;
#[cfg(any(stub, stub_wrong))]
mod stub;

use std::io::{self, Read, Write};
use std::process::ExitCode;

const USAGE: &str = "second_reader < BOOK
second_reader compare COUNT SEED
second_reader run PROGRAM COUNT SEED
second_reader speed";

/// Replays the book on standard input; one octet above the largest book is enough to see that it is too large.
fn replay_input() -> io::Result<()> {
    let mut book = Vec::new();
    io::stdin()
        .take(replay::LONGEST_BOOK as u64 + 1)
        .read_to_end(&mut book)?;
    let mut text = Vec::new();
    replay::replay(&book, &mut text);
    io::stdout().write_all(&text)
}

fn number(word: &str) -> Option<u64> {
    word.parse().ok()
}

/// True if the work was done and found nothing; none if the words ask for nothing that is known.
fn work(words: &[&str]) -> Option<bool> {
    match *words {
        [] => Some(match replay_input() {
            Ok(()) => true,
            Err(error) => {
                eprintln!("second_reader: {error}");
                false
            }
        }),
        ["compare", count, seed] => Some(compare::compare(number(count)?, number(seed)?)),
        ["run", program, count, seed] => Some(compare::run(program, number(count)?, number(seed)?)),
        ["speed"] => {
            speed::speed();
            Some(true)
        }
        _ => None,
    }
}

fn main() -> ExitCode {
    let words: Vec<String> = std::env::args().skip(1).collect();
    let words: Vec<&str> = words.iter().map(String::as_str).collect();
    match work(&words) {
        Some(true) => ExitCode::SUCCESS,
        Some(false) => ExitCode::FAILURE,
        None => {
            eprintln!("{USAGE}");
            ExitCode::FAILURE
        }
    }
}
