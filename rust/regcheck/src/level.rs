//! Asks reglevel whether a history keeps a level.
use crate::{ask_level, kept, Error};
use std::path::PathBuf;

/// A guarantee that a store may give of each of its keys, or, as `Causal`, of all of them together.
/// docs/levels.md explains them. A session is a client of a recorder until one of its calls stays pending.
#[derive(Clone, Copy, Debug, PartialEq, Eq)]
pub enum Level {
    /// Linearizable: each read gives the latest write.
    Atomic,
    /// No read misses a newer write that had ended before it began.
    Regular,
    /// Writes in the order of time, and each session sees its own operations in order.
    Session,
    /// Writes in the order of time, and no session misses a write of its own.
    OwnWrites,
    /// Writes in the order of time, and no session goes back to an older value.
    Monotonic,
    /// Each session in order, and all agree on one order of the writes.
    Sequential,
    /// Of all keys together: no read misses a newer write that it knew of.
    Causal,
}

impl Level {
    /// The word of the command line, and the key of the report.
    pub(crate) fn key(self) -> &'static str {
        match self {
            Level::Atomic => "atomic",
            Level::Regular => "regular",
            Level::Session => "session",
            Level::OwnWrites => "own_writes",
            Level::Monotonic => "monotonic",
            Level::Sequential => "sequential",
            Level::Causal => "causal",
        }
    }
}

/// Whether each register of a history, or the whole of it, keeps a level, and what that rests on.
#[derive(Clone, Debug, PartialEq, Eq)]
pub struct LevelAnswer {
    pub level: Level,
    pub kept: bool,
    /// The report of reglevel.
    pub report: Vec<u8>,
    pub(crate) program: Option<PathBuf>, // that answered, unless the library did
}

impl LevelAnswer {
    /// Why the history doesn't keep the level, as `regkit levels` says it; if it does, nothing. The history
    /// is the one that the answer was given to.
    ///
    /// # Errors
    /// Why there are no words.
    pub fn words(&self, history: &[u8]) -> Result<String, Error> {
        if self.kept {
            return Ok(String::new());
        }
        kept::level_words(history, self).map_err(Error::Program)
    }
}

/// Says whether each register of a history keeps a level. reglevel decides, which takes what regcheck takes:
/// reads and writes, each value written once to a register. Without the library it is the one that `REGLEVEL`
/// names, the one beside regcheck, or the one on `PATH`.
///
/// # Errors
/// Why there is no answer.
pub fn check_level(history: &[u8], level: Level) -> Result<LevelAnswer, Error> {
    ask_level(history, level).map_err(|error| match error {
        Error::Refused(mut refusal) => {
            refusal.words += "; reglevel takes reads and writes of distinct values";
            Error::Refused(refusal)
        }
        other => other,
    })
}
