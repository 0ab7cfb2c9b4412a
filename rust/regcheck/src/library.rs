//! Calls the library in this process.
use crate::{Answer, Bounds, Error, Level, LevelAnswer, Refusal, Verdict};
use regcheck_sys::{
    levels, regcheck_refusal, regcheck_report, reglevel_report, regsearch_refusal,
    regsearch_report, Answer as Told, ATOMIC, LINE_LENGTH, NOT_ATOMIC, REFUSED, STALE, TOO_SMALL,
    UNKNOWN,
};

/// What regcheck says.
pub fn ask(history: &[u8]) -> Result<Answer, Error> {
    // SAFETY: the pointers and lengths are those of slices, which are never null, and the two that are
    // written are borrowed by this call alone. The declarations are those of regcheck.h.
    let report = |out: &mut [u8], told: &mut Told| unsafe {
        regcheck_report(
            history.as_ptr(),
            history.len(),
            out.as_mut_ptr(),
            out.len(),
            told,
        );
    };
    // SAFETY: as above.
    let refusal = |line: &mut [u8]| unsafe {
        regcheck_refusal(
            history.as_ptr(),
            history.len(),
            line.as_mut_ptr(),
            line.len(),
        )
    };
    answer(history.len(), report, refusal)
}

/// What regsearch says. The refusal is that of regcheck.
pub fn search(history: &[u8], _refusal: Refusal, bounds: Bounds) -> Result<Answer, Error> {
    let steps = bounds.steps.unwrap_or(0);
    let configurations = bounds.configurations.unwrap_or(0);
    let configurations = usize::try_from(configurations).unwrap_or(usize::MAX);
    // SAFETY: as above.
    let report = |out: &mut [u8], told: &mut Told| unsafe {
        regsearch_report(
            history.as_ptr(),
            history.len(),
            steps,
            configurations,
            out.as_mut_ptr(),
            out.len(),
            told,
        );
    };
    // SAFETY: as above.
    let refusal = |line: &mut [u8]| unsafe {
        regsearch_refusal(
            history.as_ptr(),
            history.len(),
            line.as_mut_ptr(),
            line.len(),
        )
    };
    answer(history.len(), report, refusal)
}

/// What reglevel says, whose report lists each stale read.
pub fn ask_level(history: &[u8], level: Level) -> Result<LevelAnswer, Error> {
    // SAFETY: as above.
    let report = |out: &mut [u8], told: &mut Told| unsafe {
        reglevel_report(
            history.as_ptr(),
            history.len(),
            number(level),
            STALE,
            out.as_mut_ptr(),
            out.len(),
            told,
        );
    };
    // SAFETY: as above.
    let refusal = |line: &mut [u8]| unsafe {
        regcheck_refusal(
            history.as_ptr(),
            history.len(),
            line.as_mut_ptr(),
            line.len(),
        )
    };
    let Answer { verdict, report } = answer(history.len(), report, refusal)?;
    if verdict == Verdict::Unknown {
        return Err(Error::LevelUnknown);
    }
    Ok(LevelAnswer {
        level,
        kept: verdict == Verdict::Yes,
        report,
        program: None,
    })
}

/// The number of the level in `regcheck.h`.
fn number(level: Level) -> u32 {
    match level {
        Level::Atomic => levels::ATOMIC,
        Level::Regular => levels::REGULAR,
        Level::Session => levels::SESSION,
        Level::OwnWrites => levels::OWN_WRITES,
        Level::Monotonic => levels::MONOTONIC,
        Level::Sequential => levels::SEQUENTIAL,
        Level::Causal => levels::CAUSAL,
    }
}

/// What is said of a history of so many bytes, by the functions for a report and for the words of a refusal.
fn answer(
    length: usize,
    report: impl Fn(&mut [u8], &mut Told),
    refusal: impl Fn(&mut [u8]) -> usize,
) -> Result<Answer, Error> {
    let mut told = Told::default();
    // Enough unless registers have few operations.
    let mut out = vec![0; length + 1024];
    report(&mut out, &mut told);
    if told.status == TOO_SMALL {
        out = vec![0; usize::try_from(told.length).map_err(|_| Error::NoMemory)?];
        report(&mut out, &mut told);
    }
    let verdict = match told.status {
        ATOMIC => Verdict::Yes,
        NOT_ATOMIC => Verdict::No,
        UNKNOWN => Verdict::Unknown,
        REFUSED => return Err(refused(&told, refusal)),
        _ => return Err(Error::NoMemory),
    };
    out.truncate(told.length as usize);
    Ok(Answer {
        verdict,
        report: out,
    })
}

fn refused(told: &Told, refusal: impl Fn(&mut [u8]) -> usize) -> Error {
    let mut line = [0; LINE_LENGTH];
    let length = refusal(&mut line);
    if length == 0 {
        return Error::NoMemory;
    }
    let some = |line: u32| Some(line).filter(|line| *line > 0);
    Error::Refused(Refusal {
        number: some(told.number),
        line: some(told.line),
        other: some(told.other),
        words: String::from_utf8_lossy(&line[..length]).into_owned(),
    })
}
