//! Says whether recorded runs of registers are linearizable, by the proved checkers `regcheck` and
//! `regsearch`; or whether they keep a weaker [`Level`], by `reglevel`.
//!
//! ```
//! use regcheck::{check, Bounds, Verdict};
//!
//! let history = br#"{"process":1,"event":"call","op":"cas","register":"x","from":null,"to":1}
//! {"process":1,"event":"reply","ok":true}
//! "#;
//! assert_eq!(check(history, Bounds::default())?.verdict, Verdict::Yes);
//! # Ok::<(), regcheck::Error>(())
//! ```
//!
//! A [`Recorder`] writes such a history while threads use a store, and fails the test in words.
//!
//! It links `libregcheck.a`, which has the three checkers, and depends on nothing else. Without the feature
//! `library` it runs the programs: the `regcheck` that the variable `REGCHECK` names, or the one on `PATH`;
//! and for histories that regcheck refuses, above all those with compare-and-swap or repeated values, the
//! `regsearch` that `REGSEARCH` names, the one beside `regcheck`, or the one on `PATH`. The `reglevel` is the
//! one that `REGLEVEL` names, or is found in the same way.
mod answer;
#[cfg(not(feature = "library"))]
mod by_program;
mod clock;
mod error;
mod kept;
mod level;
#[cfg(feature = "library")]
mod library;
mod programs;
mod recorder;

pub use answer::{check, Answer, Bounds, Verdict};
pub use error::{Error, Refusal, Trouble};
pub use level::{check_level, Level, LevelAnswer};
pub use recorder::{Cas, Client, Delete, Read, Recorder, Swap, Write};

#[cfg(not(feature = "library"))]
use by_program::{ask, ask_level, search};
#[cfg(feature = "library")]
use library::{ask, ask_level, search};

/// The report of regcheck on a history.
#[derive(Clone, Debug, PartialEq, Eq)]
pub struct Checked {
    /// Whether the history is atomic, that is, linearizable.
    pub atomic: bool,
    /// A line of JSON for each register, and the summary, byte for byte as the program writes them.
    pub report: Vec<u8>,
}

/// Asks regcheck alone about a history. Threads may call it at once.
///
/// # Errors
/// Why there is no report.
pub fn report(history: &[u8]) -> Result<Checked, Error> {
    let answer = ask(history)?;
    Ok(Checked {
        atomic: answer.verdict == Verdict::Yes,
        report: answer.report,
    })
}
