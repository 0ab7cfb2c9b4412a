//! What is said of an answer. This test is by itself in its process, since it changes variables.
use regcheck::{check, Bounds};
use std::{env, fs, os::unix::fs::PermissionsExt, process};

const UNWRITTEN: &str = r#"{"process":1,"event":"call","op":"read","register":"x"}
{"process":1,"event":"reply","value":7}
"#;
const TWICE: &str = r#"{"process":1,"event":"call","op":"write","register":"x","value":1}
{"process":2,"event":"call","op":"write","register":"x","value":1}
{"process":1,"event":"reply"}
{"process":2,"event":"reply"}
"#;

// A regkit that says its words and the last line of the report, and ends as `regkit explain` does.
const REGKIT: &str = r#"#!/bin/sh
echo "$4: $1 $2 $3 $6 $7 $(tail -n 1 "$5")"
grep -q gave_up "$5" && exit 6
exit 1
"#;

#[test]
fn words_are_those_of_regkit() {
    let regkit = env::temp_dir().join(format!("regkit-{}", process::id()));
    fs::write(&regkit, REGKIT).unwrap();
    fs::set_permissions(&regkit, fs::Permissions::from_mode(0o755)).unwrap();
    env::set_var("REGKIT", &regkit);
    let few = Bounds {
        steps: Some(1),
        ..Bounds::default()
    };
    let rows = [
        ("", Bounds::default(), ""),
        (
            UNWRITTEN,
            Bounds::default(),
            r#"explain --color never   {"atomic":"no","operations":1,"registers":1}"#,
        ),
        (
            TWICE,
            few,
            r#"explain --color never --steps 1 {"atomic":"unknown","operations":2,"registers":1}"#,
        ),
    ];
    for (history, bounds, words) in rows {
        let answer = check(history.as_bytes(), bounds).expect("an answer");
        assert_eq!(answer.words(history.as_bytes(), bounds).unwrap(), words);
    }
    fs::remove_file(&regkit).unwrap();
    let answer = check(UNWRITTEN.as_bytes(), few).expect("an answer");
    let error = answer
        .words(UNWRITTEN.as_bytes(), few)
        .expect_err("no regkit");
    assert!(error.to_string().contains("could not be run"), "{error}");
}
