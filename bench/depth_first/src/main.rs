//! Says of each register of a history whether it is atomic, by a depth-first search with a cache.
//! `bench/search` compares `regsearch` with it.
//!
//! The search is Wing and Gong's (1993), with the cache that Lowe added (2017). Porcupine and the `wgl`
//! of Knossos work in this way. Nothing here is proved, and nothing is shared with `regsearch`.
//!
//! Read it in this order: `history`, what is searched, and `members`, how its lines are read; `timeline`,
//! the calls and replies that are left; `taken`, the set of operations that are in the order so far;
//! `cache`, the pairs of such a set and a value that were met; `search`, the loop; `words`, the command
//! line.
mod cache;
mod history;
mod members;
mod search;
mod taken;
mod timeline;
mod words;

use history::{read_registers, Register};
use search::{search, Answer, Bounds};
use std::io::{self, Read};
use std::process::ExitCode;
use std::time::Instant;
use words::{read_words, Words, USAGE};

/// The exit statuses, as those of `regsearch`.
const ATOMIC: u8 = 0;
const NOT_ATOMIC: u8 = 1;
const REFUSED: u8 = 2;
const WRONG_WORDS: u8 = 3;
const NOT_READ: u8 = 4;
const UNKNOWN: u8 = 6;

/// Searches one register, prints a line about it, and gives its exit status.
fn judge(register: &Register, words: &Words) -> u8 {
    let began = Instant::now();
    let bounds = Bounds {
        until: words.time.map(|time| began + time),
        bytes: words.bytes,
    };
    let found = search(&register.operations, &bounds, words.sets);
    let (verdict, status) = match found.answer {
        Answer::Yes(_) => ("yes".to_string(), ATOMIC),
        Answer::No => ("no".to_string(), NOT_ATOMIC),
        Answer::Unknown(bound) => (format!("unknown, out of {bound}"), UNKNOWN),
    };
    println!(
        "{}: {verdict}; {:.3} s, {} steps, {} in the cache, of {} bytes",
        register.name,
        began.elapsed().as_secs_f64(),
        found.steps,
        found.cached,
        found.bytes
    );
    status
}

/// The status of the whole history: a faulty register counts more than an unknown one.
fn whole(statuses: &[u8]) -> u8 {
    [NOT_ATOMIC, UNKNOWN]
        .into_iter()
        .find(|status| statuses.contains(status))
        .unwrap_or(ATOMIC)
}

fn main() -> ExitCode {
    let words = match read_words(std::env::args().skip(1)) {
        Ok(words) => words,
        Err(error) => {
            eprintln!("{error}\n{USAGE}");
            return ExitCode::from(WRONG_WORDS);
        }
    };
    let mut text = String::new();
    if let Err(error) = io::stdin().read_to_string(&mut text) {
        eprintln!("input could not be read: {error}");
        return ExitCode::from(NOT_READ);
    }
    match read_registers(&text) {
        Ok(registers) => {
            let statuses: Vec<u8> = registers.iter().map(|it| judge(it, &words)).collect();
            ExitCode::from(whole(&statuses))
        }
        Err(refusal) => {
            eprintln!("{refusal}");
            ExitCode::from(REFUSED)
        }
    }
}
