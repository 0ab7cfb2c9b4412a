//! Says whether the history in a file is linearizable: `cargo run --example check -- history.jsonl`
use regcheck::{Bounds, Verdict};
use std::{env, error::Error, fs};

fn main() -> Result<(), Box<dyn Error>> {
    let path = env::args().nth(1).ok_or("which file?")?;
    let (history, bounds) = (fs::read(path)?, Bounds::default());
    let answer = regcheck::check(&history, bounds)?;
    match answer.verdict {
        Verdict::Yes => println!("linearizable"),
        Verdict::No | Verdict::Unknown => println!("{}", answer.words(&history, bounds)?),
    }
    Ok(())
}
