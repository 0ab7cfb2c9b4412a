//! The command line.
use crate::taken::Sets;
use std::fmt;
use std::str::FromStr;
use std::time::Duration;

pub const USAGE: &str = "\
usage: depth_first [--seconds N] [--megabytes N] [--whole-sets] < HISTORY

  --seconds N      how long the search of a register may take; else as long as it needs
  --megabytes N    how much its cache may hold, in 1,048,576 bytes; default 3000
  --whole-sets     keep a bit for every operation in each entry of the cache

The exit status is 0 if the history is atomic, 1 if it isn't, 6 if that wasn't decided, 2 if the history is
refused, 3 if the command line is, and 4 if the history couldn't be read.";

/// What the command line asks for.
pub struct Words {
    pub time: Option<Duration>,
    pub bytes: usize,
    pub sets: Sets,
}

/// Why the command line is refused.
#[derive(Debug)]
pub enum WordsFault {
    Unknown(String),
    NoNumber(String),
}

impl fmt::Display for WordsFault {
    fn fmt(&self, to: &mut fmt::Formatter) -> fmt::Result {
        match self {
            Self::Unknown(word) => write!(to, "unknown option {word}"),
            Self::NoNumber(option) => write!(to, "{option} needs a whole number of 32 bits"),
        }
    }
}

fn number(option: &str, word: Option<String>) -> Result<u32, WordsFault> {
    word.and_then(|word| u32::from_str(&word).ok())
        .ok_or_else(|| WordsFault::NoNumber(option.to_string()))
}

pub fn read_words(mut given: impl Iterator<Item = String>) -> Result<Words, WordsFault> {
    let mut words = Words {
        time: None,
        bytes: 3000 << 20,
        sets: Sets::Windows,
    };
    while let Some(word) = given.next() {
        match word.as_str() {
            "--seconds" => {
                let seconds = number(&word, given.next())?;
                words.time = Some(Duration::from_secs(seconds.into()));
            }
            "--megabytes" => words.bytes = (number(&word, given.next())? as usize) << 20,
            "--whole-sets" => words.sets = Sets::Whole,
            _ => return Err(WordsFault::Unknown(word)),
        }
    }
    Ok(words)
}
