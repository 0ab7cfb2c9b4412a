//! Asks regcheck, and of what it refuses regsearch.
use crate::{ask, kept, search, Error};

/// Whether a history is linearizable.
#[derive(Clone, Copy, Debug, PartialEq, Eq)]
pub enum Verdict {
    Yes,
    No,
    /// The search for an order gave up at a bound.
    Unknown,
}

/// The verdict on a history, and what it rests on.
#[derive(Clone, Debug, PartialEq, Eq)]
pub struct Answer {
    pub verdict: Verdict,
    /// The report of regcheck, or of regsearch where regcheck refuses the history.
    pub report: Vec<u8>,
}

impl Answer {
    /// Why the history isn't linearizable, or what to do if nobody knows, as `regkit explain` says it. Of a
    /// yes there is nothing to say. The history and the bounds are those that the answer was given to.
    ///
    /// # Errors
    /// Why there are no words.
    pub fn words(&self, history: &[u8], bounds: Bounds) -> Result<String, Error> {
        match self.verdict {
            Verdict::Yes => Ok(String::new()),
            _ => kept::words(history, &self.report, bounds).map_err(Error::Program),
        }
    }
}

/// Where the search of regsearch gives up. The bounds count work and never time.
#[derive(Clone, Copy, Debug, Default, PartialEq, Eq)]
pub struct Bounds {
    /// How many steps the search for an order of one register may take; by default, or if 0, 1,000,000,000.
    pub steps: Option<u64>,
    /// How many configurations the search may hold in one list; by default, or if 0, 65,536.
    pub configurations: Option<u64>,
}

impl Bounds {
    /// The options of the program.
    pub(crate) fn options(self) -> Vec<String> {
        let bounds = [
            ("--steps", self.steps),
            ("--configurations", self.configurations),
        ];
        let mut words = Vec::new();
        for (option, most) in bounds {
            if let Some(most @ 1..) = most {
                words.extend([option.to_owned(), most.to_string()]);
            }
        }
        words
    }
}

/// Checks a history. regcheck decides what it accepts, and regsearch what else there is: repeated values and
/// compare-and-swap. Threads may call it at once.
///
/// # Errors
/// Why there is no answer.
pub fn check(history: &[u8], bounds: Bounds) -> Result<Answer, Error> {
    match ask(history) {
        // What both refuse has the words of regsearch.
        Err(Error::Refused(refusal)) => search(history, refusal, bounds),
        answer => answer,
    }
}
