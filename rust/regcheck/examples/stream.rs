//! Answers each history on standard input. tests/embed compares what it writes; its form is that of
//! tests/library/stream.c.
//!
//! With two arguments, of steps and configurations, it asks regsearch too, within these bounds. With one it
//! asks for that level.
use regcheck::{check, check_level, report, Bounds, Error, Level, Verdict};
use std::{
    env,
    io::{self, ErrorKind, Read, Write},
};

/// What is asked of each history.
#[derive(Clone, Copy)]
enum Question {
    Check,
    Search(Bounds),
    Keeps(Level),
}

/// The status and the report.
fn ask(history: &[u8], question: Question) -> Result<(u32, Vec<u8>), Error> {
    match question {
        Question::Check => {
            report(history).map(|checked| (u32::from(!checked.atomic), checked.report))
        }
        Question::Search(bounds) => {
            check(history, bounds).map(|answer| (status(answer.verdict), answer.report))
        }
        Question::Keeps(level) => {
            check_level(history, level).map(|answer| (u32::from(!answer.kept), answer.report))
        }
    }
}

fn status(verdict: Verdict) -> u32 {
    match verdict {
        Verdict::Yes => 0,
        Verdict::No => 1,
        Verdict::Unknown => 6,
    }
}

/// Status, number, line and other line, and the report or the words of the refusal.
fn answer(history: &[u8], question: Question) -> ([u32; 4], Vec<u8>) {
    match ask(history, question) {
        Ok((status, report)) => ([status, 0, 0, 0], report),
        Err(error) => {
            let numbers = match &error {
                Error::Refused(refusal) => [
                    2,
                    refusal.number.unwrap_or(0),
                    refusal.line.unwrap_or(0),
                    refusal.other.unwrap_or(0),
                ],
                Error::NoMemory | Error::Program(_) => [4, 17, 0, 0],
                Error::LevelUnknown => [6, 0, 0, 0],
            };
            (numbers, error.to_string().into_bytes())
        }
    }
}

fn level(word: &str) -> Level {
    match word {
        "atomic" => Level::Atomic,
        "regular" => Level::Regular,
        "session" => Level::Session,
        "own_writes" => Level::OwnWrites,
        "monotonic" => Level::Monotonic,
        "sequential" => Level::Sequential,
        "causal" => Level::Causal,
        _ => panic!("{word} is no level"),
    }
}

fn question() -> Question {
    let words: Vec<String> = env::args().skip(1).collect();
    let number = |word: &String| Some(word.parse().expect("a number"));
    match &words[..] {
        [] => Question::Check,
        [word] => Question::Keeps(level(word)),
        [steps, configurations, ..] => Question::Search(Bounds {
            steps: number(steps),
            configurations: number(configurations),
        }),
    }
}

fn main() -> io::Result<()> {
    let question = question();
    let (mut input, mut output) = (io::stdin().lock(), io::stdout().lock());
    loop {
        let mut length = [0; 8];
        match input.read_exact(&mut length) {
            Err(error) if error.kind() == ErrorKind::UnexpectedEof => return output.flush(),
            read => read?,
        }
        let mut history = vec![0; u64::from_le_bytes(length) as usize];
        input.read_exact(&mut history)?;
        let (numbers, bytes) = answer(&history, question);
        for number in numbers {
            output.write_all(&number.to_le_bytes())?;
        }
        output.write_all(&(bytes.len() as u64).to_le_bytes())?;
        output.write_all(&bytes)?;
    }
}
