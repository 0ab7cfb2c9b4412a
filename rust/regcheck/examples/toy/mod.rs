//! Runs toy stores whose events are the same in each language. tests/languages compares what is said of them.
use regcheck::{Bounds, Recorder};
use std::{env, process};

/// Records one run of a store, and prints the verdict in words. The first word of the command line says which
/// store: faulty or right, or, for the right one and a search that soon gives up, bounded.
pub fn run(name: &str, record: fn(&Recorder, bool)) {
    let mut time = 0;
    let kind = env::args().nth(1).unwrap_or_default();
    let bounds = Bounds {
        steps: (kind == "bounded").then(|| 1),
        ..Bounds::default()
    };
    let recorder = Recorder::new()
        .keep_in("kept")
        .bounds(bounds)
        .clock(move || {
            time += 1_000_000;
            time
        });
    record(&recorder, kind != "faulty");
    match recorder.check(name) {
        Ok(()) => println!("linearizable"),
        Err(trouble) => {
            println!("{trouble}");
            process::exit(1);
        }
    }
}
