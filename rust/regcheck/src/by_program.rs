//! Runs the programs in the place of the library.
use crate::{
    programs::{companion, complaint, find, missing, run, GAVE_UP, NOT_ATOMIC},
    Answer, Bounds, Error, Level, LevelAnswer, Refusal, Verdict,
};
use std::{path::Path, process::Output};

const ATOMIC: Option<i32> = Some(0);
const REFUSED: Option<i32> = Some(2);

/// What regcheck says.
pub fn ask(history: &[u8]) -> Result<Answer, Error> {
    let (variable, name) = ("REGCHECK", "regcheck");
    let program = find(variable, name).ok_or_else(|| Error::Program(missing(variable, name)))?;
    answer(&program, Vec::new(), history)
}

/// What regsearch says. The refusal is that of regcheck, and stands if there is no regsearch.
pub fn search(history: &[u8], mut refusal: Refusal, bounds: Bounds) -> Result<Answer, Error> {
    match companion("REGSEARCH", "regsearch") {
        Ok(program) => answer(&program, bounds.options(), history),
        Err(missing) => {
            refusal.words += &format!("; repeated values and cas need regsearch, but {missing}");
            Err(Error::Refused(refusal))
        }
    }
}

/// What reglevel says, whose report lists each stale read.
pub fn ask_level(history: &[u8], level: Level) -> Result<LevelAnswer, Error> {
    let program = companion("REGLEVEL", "reglevel").map_err(Error::Program)?;
    let words = ["--stale", "--require", level.key()];
    let said = run(&program, words, history).map_err(Error::Program)?;
    match said.status.code() {
        ATOMIC | NOT_ATOMIC => Ok(LevelAnswer {
            level,
            kept: said.status.code() == ATOMIC,
            report: said.stdout,
            program: Some(program),
        }),
        GAVE_UP => Err(Error::LevelUnknown),
        REFUSED => Err(Error::Refused(read(complaint(&said)))),
        _ => Err(Error::Program(failure(&program, &said))),
    }
}

fn answer(program: &Path, words: Vec<String>, history: &[u8]) -> Result<Answer, Error> {
    let said = run(program, words, history).map_err(Error::Program)?;
    let verdict = match said.status.code() {
        ATOMIC => Verdict::Yes,
        NOT_ATOMIC => Verdict::No,
        GAVE_UP => Verdict::Unknown,
        REFUSED => return Err(Error::Refused(read(complaint(&said)))),
        _ => return Err(Error::Program(failure(program, &said))),
    };
    Ok(Answer {
        verdict,
        report: said.stdout,
    })
}

/// What is wrong if a program ends as it shouldn't.
fn failure(program: &Path, said: &Output) -> String {
    format!(
        "{} ended with {}: {}",
        program.display(),
        said.status,
        complaint(said)
    )
}

/// Reads what a program said of a history that it refused.
fn read(words: String) -> Refusal {
    let of_line = words.strip_prefix("line ");
    let line = of_line.and_then(|rest| rest.split(':').next()?.parse().ok());
    let other = words
        .rsplit_once(" at line ")
        .and_then(|(_, other)| other.parse().ok());
    Refusal {
        number: None,
        line,
        other: line.and(other),
        words,
    }
}

#[cfg(test)]
mod tests {
    use super::read;

    #[test]
    fn the_lines_of_a_refusal_are_read() {
        let rows = [
            ("line 3: why", Some(3), None),
            ("line 12: why at line 7", Some(12), Some(7)),
            ("why", None, None),
        ];
        for (words, line, other) in rows {
            let refusal = read(words.to_owned());
            assert_eq!((refusal.line, refusal.other), (line, other), "{words}");
            assert_eq!(refusal.words, words);
        }
    }
}
