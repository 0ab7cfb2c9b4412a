//! What is said of levels. This test is by itself in its process, since it changes variables.
use regcheck::{check_level, Error, Level, Recorder, Refusal, Trouble};
use std::{env, fs, path::Path, process};

/// One session reads the newer value, and then the older one.
fn goes_back(folder: &Path) -> Recorder {
    let recorder = Recorder::new().keep_in(folder);
    recorder.client("one").write("x").replied();
    let mut two = recorder.client("two");
    two.read("x").replied(Some(1));
    two.read("x").replied(None);
    recorder
}

fn not_kept(recorder: &Recorder, level: Level) -> String {
    match recorder.check_level("level", level) {
        Err(Trouble::NotKept(words)) => words,
        other => panic!("{other:?}"),
    }
}

fn not_checked(recorder: &Recorder) -> String {
    match recorder.check_level("none", Level::Session) {
        Err(trouble @ Trouble::NotChecked(_)) => trouble.to_string(),
        other => panic!("{other:?}"),
    }
}

fn expect(words: &str, part: &str) {
    assert!(words.contains(part), "{words}");
}

/// The verdicts are the same with the library and without. Here is no regkit.
fn each_level(folder: &Path) {
    let regkit = env::var_os("REGKIT");
    env::set_var("REGKIT", "/nowhere/regkit");
    let recorder = goes_back(folder);
    recorder.assert_level("level", Level::OwnWrites);
    for (level, key) in [
        (Level::Atomic, "atomic"),
        (Level::Regular, "regular"),
        (Level::Session, "session"),
        (Level::Monotonic, "monotonic"),
        (Level::Sequential, "sequential"),
        (Level::Causal, "causal"),
    ] {
        let words = not_kept(&recorder, level);
        let line = format!("level.jsonl: doesn't keep {key}\n  {{\"atomic\":\"no\"");
        expect(&words, &line);
        expect(&words, "/nowhere/regkit could not be run");
    }
    match regkit {
        Some(path) => env::set_var("REGKIT", path),
        None => env::remove_var("REGKIT"),
    }
    let report = fs::read_to_string(folder.join("level.report")).unwrap();
    expect(&report, "\"session\":\"no\"");
    expect(&report, "\"stale_reads\":[[5,1]]");
}

fn no_answer(folder: &Path) {
    let recorder = Recorder::new().keep_in(folder);
    recorder.client("one").write("x").replied();
    expect(
        &not_kept(&recorder, Level::Session),
        "the history keeps session, but no read was completed",
    );
    recorder.client("one").cas("x", Some(1), 2).replied(true);
    expect(
        &not_checked(&recorder),
        "; reglevel takes reads and writes of distinct values",
    );
}

fn refusal(history: &str) -> Refusal {
    match check_level(history.as_bytes(), Level::Session) {
        Err(Error::Refused(refusal)) => refusal,
        other => panic!("{other:?}"),
    }
}

/// The words are those of regkit, which asks the same reglevel.
#[cfg(not(feature = "library"))]
fn by_itself(folder: &Path) {
    use std::os::unix::fs::PermissionsExt;

    let recorder = goes_back(folder);
    let words = not_kept(&recorder, Level::Session);
    expect(&words, "level.jsonl: keeps read your writes; ");
    expect(
        &words,
        "required: session, which doesn't hold of 1 of 1 register",
    );
    let page = fs::read_to_string(folder.join("level.html")).unwrap();
    expect(&page, "</svg>");
    let history = recorder.history();
    let no = check_level(&history, Level::Session).expect("an answer");
    let words = no.words(&history).expect("words");
    assert!(words.starts_with("keeps read your writes; "), "{words}");
    assert_eq!(refusal("[]\n").line, Some(1));
    let unsure = folder.join("unsure");
    fs::write(&unsure, "#!/bin/sh\nexit 6\n").unwrap();
    fs::set_permissions(&unsure, fs::Permissions::from_mode(0o755)).unwrap();
    env::set_var("REGLEVEL", &unsure);
    assert_eq!(
        check_level(&history, Level::Causal),
        Err(Error::LevelUnknown)
    );
    env::set_var("REGLEVEL", "/nowhere/reglevel");
    expect(
        &not_checked(&recorder),
        "no verdict: /nowhere/reglevel could not be run",
    );
}

/// The words are those of regkit, which asks whatever it finds: this one says its arguments.
#[cfg(feature = "library")]
fn by_itself(folder: &Path) {
    use std::os::unix::fs::PermissionsExt;

    fs::create_dir_all(folder).unwrap();
    let regkit = folder.join("regkit");
    fs::write(&regkit, "#!/bin/sh\necho \"$6: $*\"\nexit 1\n").unwrap();
    fs::set_permissions(&regkit, fs::Permissions::from_mode(0o755)).unwrap();
    env::set_var("REGKIT", &regkit);
    let history = goes_back(folder).history();
    let no = check_level(&history, Level::Session).expect("an answer");
    let words = no.words(&history).expect("words");
    let start = "levels --color never --require session ";
    assert!(words.starts_with(start), "{words}");
    let refusal = refusal("[]\n");
    assert_eq!((refusal.number, refusal.line), (Some(3), Some(1)));
}

#[test]
fn levels_are_kept_or_not() {
    if cfg!(feature = "library") {
        env::set_var("REGLEVEL", "/nowhere/reglevel");
    }
    let folder = env::temp_dir().join(format!("regcheck-levels-{}", process::id()));
    each_level(&folder.join("each"));
    no_answer(&folder.join("none"));
    by_itself(&folder.join("words"));
    fs::remove_dir_all(&folder).unwrap();
}
