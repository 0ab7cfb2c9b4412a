//! Why there is no answer, and why a test fails.
use std::fmt;

/// Why there is no answer.
#[derive(Clone, Debug, PartialEq, Eq)]
pub enum Error {
    /// The history is refused.
    Refused(Refusal),
    /// Memory ran out in the library. A program says so in words.
    NoMemory,
    /// reglevel gave up, as it may do if `Level::Causal` is asked for.
    LevelUnknown,
    /// A program couldn't be run, or said what no refusal is. The library never says this.
    Program(String),
}

/// Why a history is refused.
#[derive(Clone, Debug, PartialEq, Eq)]
pub struct Refusal {
    /// The number of the refusal in docs/format.md, if the library refused the history: a program
    /// tells words alone.
    pub number: Option<u32>,
    /// The refused line, from 1, if a line is refused.
    pub line: Option<u32>,
    /// The line of the open call, of the earlier write or of the crash that it contradicts.
    pub other: Option<u32>,
    /// What the program says of it.
    pub words: String,
}

impl fmt::Display for Error {
    fn fmt(&self, to: &mut fmt::Formatter<'_>) -> fmt::Result {
        match self {
            Error::Refused(refusal) => to.write_str(&refusal.words),
            Error::NoMemory => to.write_str("memory ran out"),
            Error::LevelUnknown => to.write_str(
                "causal is unknown: deciding it would take more memory or work than reglevel spends. It is \
                 decided for fewer sessions, or a shorter run",
            ),
            Error::Program(words) => to.write_str(words),
        }
    }
}

impl std::error::Error for Error {}

/// Why a recorded history fails its test, in words.
#[derive(Clone, Debug, PartialEq, Eq)]
pub enum Trouble {
    /// The recorder was used in a way that would make the history wrong.
    Mistake(String),
    /// No order of the operations explains what the clients saw, or too little was read to say so.
    NotLinearizable(String),
    /// Some register doesn't keep the level, or too little was read to say so.
    NotKept(String),
    /// The search for an order gave up at a bound. The words say what to do.
    Unknown(String),
    /// The checker gave no verdict.
    NotChecked(String),
}

impl fmt::Display for Trouble {
    fn fmt(&self, to: &mut fmt::Formatter<'_>) -> fmt::Result {
        match self {
            Trouble::Mistake(words) => write!(to, "the recorder was used wrongly: {words}"),
            Trouble::NotLinearizable(words) | Trouble::NotKept(words) | Trouble::Unknown(words) => {
                to.write_str(words)
            }
            Trouble::NotChecked(words) => write!(to, "no verdict: {words}"),
        }
    }
}

impl std::error::Error for Trouble {}
